"""Each answer of a map: it does what `dict` does, in the order of its keys."""

import copy
import pickle
import unittest
from collections.abc import ItemsView, KeysView, Mapping, MutableMapping, ValuesView

import boltcomfrey
from boltcomfrey import BytesMap, NumberMap
from kinds import Numbers, Strings


class Answers:
    def setUp(self):
        self.tea, self.milk, self.pot, self.none, self.large = self.values
        self.map = self.kind({b"tea": self.tea, b"milk": self.milk})

    def pairs(self):
        return [(b"milk", self.milk), (b"tea", self.tea)]

    def test_made_as_dict_is(self):
        self.assertEqual(dict(self.kind()), {})
        for made in (
            self.kind([(b"tea", self.tea), (b"milk", self.milk)]),
            self.kind(iter(self.pairs())),
            self.kind(self.map),
            self.kind([(b"tea", self.pot), *self.pairs()]),
        ):
            self.assertEqual(list(made.items()), self.pairs())
        alike = self.kind.fromkeys([b"b", b"a"], self.tea)
        self.assertEqual(list(alike.items()), [(b"a", self.tea), (b"b", self.tea)])
        with self.assertRaises(ValueError):
            self.kind([(b"tea",)])

    def test_is_a_mutable_mapping(self):
        self.assertIsInstance(self.map, MutableMapping)
        self.assertIsInstance(self.map.keys(), KeysView)
        self.assertIsInstance(self.map.values(), ValuesView)
        self.assertIsInstance(self.map.items(), ItemsView)
        self.assertIsInstance(self.map[:], Mapping)
        with self.assertRaises(TypeError):
            hash(self.map)

    def test_reads_a_key(self):
        self.assertEqual(self.map[b"tea"], self.tea)
        self.assertEqual(self.map.get(b"tea"), self.tea)
        self.assertIsNone(self.map.get(b"salt"))
        self.assertEqual(self.map.get(b"salt", "none"), "none")
        self.assertTrue(b"tea" in self.map)
        self.assertFalse(b"te" in self.map)
        with self.assertRaises(KeyError) as caught:
            self.map[b"salt"]
        self.assertEqual(caught.exception.args, (b"salt",))
        for key in (bytearray(b"tea"), memoryview(b"tea"), memoryview(b"-t-e-a")[1::2]):
            self.assertEqual(self.map[key], self.tea)
            self.assertIn(key, self.map)

    def test_keeps_each_value(self):
        for key, value in zip((b"", b"\0", b"\xff", b"a\0b", b"k" * 1024), self.values):
            self.map[key] = value
            self.assertEqual(self.map[key], value)
            self.assertEqual(type(self.map[key]), type(value))
        self.assertEqual([it for it, _ in zip(self.map, range(3))], [b"", b"\0", b"a\0b"])
        self.assertEqual(self.map.first(), (b"", self.tea))
        self.assertEqual(self.map.last(), (b"\xff", self.pot))

    def test_sets_and_takes_out(self):
        self.map[b"tea"] = self.pot
        self.assertEqual(self.map[b"tea"], self.pot)
        self.assertEqual(len(self.map), 2)
        del self.map[b"tea"]
        self.assertNotIn(b"tea", self.map)
        with self.assertRaises(KeyError):
            del self.map[b"tea"]
        self.assertEqual(self.map.pop(b"milk"), self.milk)
        self.assertEqual(self.map.pop(b"milk", None), None)
        with self.assertRaises(KeyError):
            self.map.pop(b"milk")
        self.assertFalse(self.map)

    def test_sets_where_a_key_is_or_is_not(self):
        self.assertEqual(self.map.setdefault(b"tea", self.pot), self.tea)
        self.assertEqual(self.map.setdefault(b"salt", self.pot), self.pot)
        self.assertEqual(self.map[b"salt"], self.pot)
        self.assertFalse(self.map.add(b"tea", self.pot))
        self.assertTrue(self.map.add(b"rice", self.pot))
        self.assertFalse(self.map.replace(b"oats", self.pot))
        self.assertTrue(self.map.replace(b"tea", self.pot))
        self.assertEqual(list(self.map), [b"milk", b"rice", b"salt", b"tea"])
        self.assertEqual(self.map[b"tea"], self.pot)

    def test_pops_either_end(self):
        self.assertEqual(self.map.popitem(last=False), (b"milk", self.milk))
        self.assertEqual(self.map.popitem(), (b"tea", self.tea))
        with self.assertRaises(KeyError):
            self.map.popitem()

    def test_updates(self):
        self.map.update({b"salt": self.pot})
        self.map.update([(b"tea", self.pot)])
        self.map |= {b"milk": self.pot}
        self.assertEqual(set(self.map.values()), {self.pot})
        both = self.map | self.kind({b"tea": self.tea})
        self.assertEqual((both[b"tea"], self.map[b"tea"]), (self.tea, self.pot))
        self.assertIsInstance(both, self.kind)

        class Keyed:
            def keys(self):
                return [b"tea"]

            def __getitem__(inner, key):
                return self.milk

        self.map.update(Keyed())
        self.assertEqual(self.map[b"tea"], self.milk)

    def test_an_update_that_fails_keeps_what_came_before(self):
        with self.assertRaises(TypeError):
            self.map.update([(b"a", self.tea), (b"b", None), (b"c", self.tea)])
        self.assertEqual(list(self.map), [b"a", b"milk", b"tea"])

    def test_clears(self):
        made = self.kind({b"tea": self.tea, b"oat": self.tea}, longest_key=3, number=7)
        made.clear()
        self.assertEqual((len(made), made.number, made.longest_key), (0, 10, 3))
        self.assertFalse(made)
        made.clear()
        self.assertEqual(made.number, 10)

    def test_walks_both_ways(self):
        pairs = self.pairs()
        for walked, wanted in (
            (self.map, [it for it, _ in pairs]),
            (self.map.keys(), [it for it, _ in pairs]),
            (self.map.values(), [it for _, it in pairs]),
            (self.map.items(), pairs),
        ):
            self.assertEqual(list(walked), wanted)
            self.assertEqual(list(reversed(walked)), wanted[::-1])
            self.assertEqual(len(walked), 2)

    def test_walks_over_many_pages(self):
        keys = [b"%05d" % it for it in range(5000)]
        made = self.kind.fromkeys(reversed(keys), self.pot)
        made[b"02000"] = self.large
        self.assertEqual(list(made), keys)
        self.assertEqual(list(reversed(made)), keys[::-1])
        self.assertEqual(sum(it == self.pot for it in made.values()), 4999)
        self.assertEqual(len(made[b"01000":b"03000"]), 2000)
        self.assertEqual(made[b"01000":b"03000"].values().__contains__(self.large), True)

    def test_views_show_what_is_there_when_they_are_asked(self):
        keys, items, values = self.map.keys(), self.map.items(), self.map.values()
        self.map[b"salt"] = self.pot
        self.assertEqual(list(keys), [b"milk", b"salt", b"tea"])
        self.assertIn((b"salt", self.pot), items)
        self.assertNotIn((b"salt", self.tea), items)
        self.assertNotIn((b"oats", self.tea), items)
        self.assertIn(self.pot, values)
        self.assertNotIn(None, values)
        self.assertEqual(keys & {b"salt", b"oats"}, {b"salt"})
        self.assertEqual(keys - {b"salt"}, {b"milk", b"tea"})

    def test_a_walk_goes_over_the_map_as_it_was(self):
        for walk in (iter(self.map), iter(self.map.keys()), reversed(self.map)):
            self.map.clear()
            self.map[b"zeal"] = self.pot
            self.assertEqual(sorted(walk), [b"milk", b"tea"])
            self.setUp()
        walk = iter(self.map.items())
        for key, value in walk:
            del self.map[key]
            self.map[b"new " + key] = value
        self.assertEqual(list(self.map), [b"new milk", b"new tea"])
        walk = iter(self.map)
        next(walk)
        del self.map
        self.assertEqual(list(walk), [b"new tea"])

    def test_finds_neighbours(self):
        milk, tea = self.pairs()
        self.assertEqual((self.map.first(), self.map.last()), (milk, tea))
        for key, found in (
            (b"", (milk, milk, None, None)),
            (b"milk", (milk, tea, milk, None)),
            (b"n", (tea, tea, milk, milk)),
            (b"tea", (tea, None, tea, milk)),
            (b"u", (None, None, tea, tea)),
        ):
            with self.subTest(key=key):
                self.assertEqual(self.map.first_from(key), found[0])
                self.assertEqual(self.map.first_after(key), found[1])
                self.assertEqual(self.map.last_to(key), found[2])
                self.assertEqual(self.map.last_before(key), found[3])
        none = self.kind()
        self.assertEqual((none.first(), none.last(), none.first_from(b"")), (None, None, None))

    def test_finds_the_longest_prefix(self):
        self.assertEqual(self.map.longest_prefix(b"teapot"), (b"tea", self.tea))
        self.assertEqual(self.map.longest_prefix(b"tea"), (b"tea", self.tea))
        self.assertIsNone(self.map.longest_prefix(b"te"))
        self.map[b""] = self.large
        self.assertEqual(self.map.longest_prefix(b"te"), (b"", self.large))

    def test_equals_what_has_the_same_pairs(self):
        self.assertEqual(self.map, dict(self.pairs()))
        self.assertEqual(dict(self.pairs()), self.map)
        self.assertEqual(self.map, self.map)
        self.assertEqual(self.map, self.kind(self.pairs(), number=9))
        self.assertNotEqual(self.map, self.kind({b"tea": self.tea}))
        self.assertNotEqual(self.map, {b"tea": self.tea, b"milk": self.pot})
        self.assertNotEqual(self.map, 7)
        other = BytesMap if self.kind is NumberMap else NumberMap
        self.assertNotEqual(self.map, other.fromkeys(self.map, 5 if other is NumberMap else b"5"))

    def test_is_copied(self):
        for made in (self.map.copy(), copy.copy(self.map), copy.deepcopy(self.map)):
            self.assertEqual((made, made.number), (self.map, 2))
            made[b"tea"] = self.pot
            self.assertEqual(self.map[b"tea"], self.tea)
        made = self.map.snapshot()
        self.map[b"tea"] = self.pot
        self.assertEqual((made[b"tea"], made.number, self.map.number), (self.tea, 3, 3))

    def test_is_pickled(self):
        class_of = type(self.map)
        self.map = class_of(self.map, longest_key=2000, number=9)
        made = pickle.loads(pickle.dumps(self.map))
        self.assertIs(type(made), class_of)
        self.assertEqual((made, made.number, made.longest_key), (self.map, 11, 2000))

    def test_is_shown(self):
        name = self.kind.__name__
        self.assertEqual(
            repr(self.map), f"{name}({{b'milk': {self.milk!r}, b'tea': {self.tea!r}}})"
        )
        self.assertEqual(eval(repr(self.map), vars(boltcomfrey)), self.map)
        self.assertEqual(repr(self.kind()), f"{name}({{}})")
        self.assertEqual(repr(self.map[b"n":]), f"Range({{b'tea': {self.tea!r}}})")
        many = self.kind.fromkeys([b"%04d" % it for it in range(2000)], self.large)
        self.assertEqual(repr(many), f"<{name} of 2,000 keys, b'0000' to b'1999'>")
        many[b"x" * 1000] = self.large
        self.assertLess(len(repr(many[b"1999":])), 200)

    def test_has_a_number(self):
        self.assertEqual(self.kind().number, 0)
        made = self.kind(number=5)
        made[b"a"] = self.tea
        made[b"a"] = self.tea
        made.pop(b"b", None)
        made.add(b"a", self.pot)
        self.assertEqual(made.number, 7)
        del made[b"a"]
        self.assertEqual(made.number, 8)

    def test_a_subclass_stays_one(self):
        class Own(self.kind):
            pass

        own = Own(self.pairs())
        own.note = "kept"
        for made in (own.copy(), own.snapshot(), own.prefix_snapshot(b"t"), own.difference(own)):
            self.assertIs(type(made), Own)
        self.assertEqual(own, self.map)
        self.assertEqual(own.__reduce__()[2], {"note": "kept"})


class NumberAnswers(Numbers, Answers, unittest.TestCase):
    def test_counts(self):
        words = NumberMap()
        for word in (b"tea", b"milk", b"tea"):
            words[word] = words.get(word, 0) + 1
        words[b"milk"] += 5
        self.assertEqual(dict(words), {b"tea": 2, b"milk": 6})

    def test_takes_what_is_an_index(self):
        class Three:
            def __index__(self):
                return 3

        words = NumberMap({b"a": True, b"b": Three()})
        words.add(b"c", Three())
        self.assertEqual(list(words.values()), [1, 3, 3])
        self.assertEqual(words.setdefault(b"d", Three()), 3)


class BytesAnswers(Strings, Answers, unittest.TestCase):
    def test_copies_values(self):
        value = bytearray(b"green")
        names = BytesMap({b"tea": value, b"milk": memoryview(b"milk")})
        value[:] = b"black"
        self.assertEqual(dict(names), {b"tea": b"green", b"milk": b"milk"})
        self.assertEqual(names.setdefault(b"salt", bytearray(b"s")), b"s")
        self.assertIs(type(names.setdefault(b"rice", bytearray(b"r"))), bytes)

    def test_values_as_long_as_a_page_and_longer(self):
        lengths = [0, 1, (1 << 16) - 1, 1 << 16, (1 << 16) + 1, 1 << 20]
        made = BytesMap({bytes([it]): b"v" * length for it, length in enumerate(lengths)})
        for walk in (made.values(), reversed(list(reversed(made.values())))):
            self.assertEqual([len(it) for it in walk], lengths)
        self.assertEqual(made.last(), (b"\x05", b"v" * (1 << 20)))
        self.assertEqual(made.pop(b"\x05"), b"v" * (1 << 20))


if __name__ == "__main__":
    unittest.main()
