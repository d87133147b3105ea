//! Pairs that are taken out as they are given.
use super::{Compared, Drawn};
use boltcomfrey::Refusal;

impl<V: Drawn> Compared<V> {
    /// Takes out some of the pairs of a range as they are given. A refused step is made once more.
    pub(super) fn extract(&mut self, at: usize) {
        let (low, most) = (self.random.key(), self.random.below(40) as usize);
        let (map, model) = &mut self.versions[at];
        let (mut asked, mut refused) = (0, 0);
        let mut chosen = map.extract_if(low.clone().., |key, _| {
            asked += 1;
            key.len() % 3 > 0
        });
        let mut step = || {
            loop {
                match chosen.try_next() {
                    Err(refusal) => assert_eq!(refusal, Refusal::NoMemory),
                    Ok(pair) => return pair,
                }
                refused += 1;
            }
        };
        let within: Vec<_> = model.range(low..).collect();
        let is_wanted = |at: &usize| within[*at].0.len() % 3 > 0;
        let wanted: Vec<_> = (0..within.len()).filter(is_wanted).take(most).collect();
        for place in &wanted {
            let (key, value) = &within[*place];
            assert_eq!(step(), Some((key.clone(), value.clone())));
            model.remove(key);
        }
        if wanted.len() < most {
            assert_eq!((step(), asked), (None, within.len()));
        } else {
            assert_eq!(asked, wanted.last().map_or(0, |it| it + 1));
        }
        self.refused += refused;
    }
}
