//! Entries, and keys that have to be new.
use super::{Compared, Drawn};
use boltcomfrey::{Entry, InsertError, Refusal};

impl<V: Drawn> Compared<V> {
    /// Changes a key, or sets it, by its entry.
    pub(super) fn enter(&mut self, at: usize) {
        let (key, value) = (self.random.key(), V::drawn(&mut self.random));
        let (other, how) = (V::drawn(&mut self.random), self.random.below(5));
        let (map, model) = &mut self.versions[at];
        let was = model.pairs.get(&key).cloned();
        let entry = map.entry(&key);
        assert_eq!((entry.key(), entry.get()), (&key[..], was.as_ref()));
        let told = match how {
            0 => entry.or_insert(value.clone()).map(|it| {
                assert_eq!(it, was.clone().unwrap_or(value.clone()));
                was.is_none().then_some(value)
            }),
            1 => {
                let changed = entry.and_modify(|it| *it = other.clone());
                let wanted = was.as_ref().map_or(&value, |_| &other).clone();
                changed.or_insert(value).map(|it| {
                    assert_eq!(it, wanted);
                    Some(wanted)
                })
            }
            2 => entry.insert(value.clone()).map(|it| {
                assert_eq!(it, was);
                Some(value)
            }),
            3 => entry.insert_entry(value.clone()).map(|it| {
                assert_eq!((it.key(), it.get()), (&key[..], &value));
                Some(value)
            }),
            _ => match entry {
                Entry::Occupied(mut entry) => entry.insert(value.clone()).map(|it| {
                    assert_eq!((Some(it), entry.get()), (was, &value));
                    Some(value)
                }),
                Entry::Vacant(entry) => {
                    assert_eq!((entry.into_key(), was), (key.clone(), None));
                    Ok(None)
                }
            },
        };
        if key.len() > model.longest && told.is_err() {
            assert_eq!(told, Err(Refusal::TooLong));
            return;
        }
        let told = told.map(|set| {
            if let Some(value) = set {
                model.insert(&key, value);
            }
        });
        self.note(told);
    }

    /// Takes out the first key or the last one by its entry.
    pub(super) fn enter_at_an_end(&mut self, at: usize) {
        let is_first = self.random.below(2) == 0;
        let (map, model) = &mut self.versions[at];
        let (entry, key) = if is_first {
            (map.first_entry(), model.pairs.keys().next())
        } else {
            (map.last_entry(), model.pairs.keys().next_back())
        };
        assert_eq!(entry.as_ref().map(|it| it.key()), key.map(Vec::as_slice));
        let Some(entry) = entry else { return };
        let told = entry.remove_entry().map(|(key, value)| {
            assert_eq!(model.remove(&key), Some(value));
        });
        self.note(told);
    }

    /// Sets a key where it is not there.
    pub(super) fn try_insert(&mut self, at: usize) {
        let (key, value) = (self.random.key(), V::drawn(&mut self.random));
        let (map, model) = &mut self.versions[at];
        let is_long = key.len() > model.longest;
        let told = match map.try_insert(&key, value.clone()) {
            Ok(()) => {
                assert_eq!(model.insert(&key, value), None);
                Ok(())
            }
            Err(InsertError::Occupied { entry, value: it }) => {
                assert_eq!((entry.key(), it), (&key[..], value));
                assert_eq!(model.pairs.get(&key), Some(entry.get()));
                Ok(())
            }
            Err(InsertError::Refused(Refusal::TooLong)) if is_long => Ok(()),
            Err(InsertError::Refused(refusal)) => Err(refusal),
        };
        self.note(told);
    }
}
