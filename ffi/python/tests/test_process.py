"""What a map meets in a process: threads, forked children, signals, refused memory, the end."""

import ctypes
import gc
import multiprocessing
import os
import signal
import subprocess
import sys
import threading
import time
import unittest

from boltcomfrey import BytesMap, ForkedProcess, NumberMap
from kinds import Numbers, Strings

KEYS = [b"%04d" % it for it in range(2000)]


def run(*lines):
    """What a program prints that is run by itself, and what it says of errors."""
    words = [sys.executable, "-W", "error", "-c", "\n".join(lines)]
    here = os.path.dirname(os.path.realpath(__file__))
    ran = subprocess.run(words, capture_output=True, text=True, cwd=here, timeout=120)
    return ran.returncode, ran.stdout, ran.stderr


class Threads:
    def test_snapshots_are_changed_by_threads(self):
        one, two = self.values[:2]
        base, wrong, made = self.kind.fromkeys(KEYS, one), [], {}
        begin = threading.Barrier(4)

        def work(name, own):
            begin.wait()
            for turn in range(3):
                for key in KEYS[name::4]:
                    own[key] = two
                    if base[key] != one or own.snapshot()[key] != two:
                        wrong.append(key)
                if sum(it == two for it in own.values()) != len(KEYS[name::4]):
                    wrong.append(name)
                later = own.snapshot()
                if len([*base.diff(later)]) != len(KEYS[name::4]):
                    wrong.append(name)
                own = later
            made[name] = own

        threads = [threading.Thread(target=work, args=(it, base.copy())) for it in range(4)]
        for it in threads:
            it.start()
        for it in threads:
            it.join()
        self.assertEqual(wrong, [])
        self.assertEqual(base, dict.fromkeys(KEYS, one))
        for name, own in made.items():
            wanted = {it: two if it in KEYS[name::4] else one for it in KEYS}
            self.assertEqual(own, wanted)

    def test_one_map_is_changed_by_threads(self):
        shared = self.kind()
        keys = [KEYS[it::4] for it in range(4)]

        def work(own):
            for key in own:
                shared[key] = self.values[0]
                next(iter(shared))
            for key in own[::2]:
                del shared[key]

        threads = [threading.Thread(target=work, args=(it,)) for it in keys]
        for it in threads:
            it.start()
        for it in threads:
            it.join()
        self.assertEqual(list(shared), sorted(it for own in keys for it in own[1::2]))
        self.assertEqual(shared.number, 3000)

    def test_maps_are_dropped_on_other_threads(self):
        base = self.kind.fromkeys(KEYS, self.values[0])
        walks = [iter(base) for _ in range(50)]
        for walk in walks:
            next(walk)
        thread = threading.Thread(target=walks.clear)
        thread.start()
        for key in KEYS:
            base[key] = self.values[1]
        thread.join()
        self.assertEqual(set(base.values()), {self.values[1]})

    def test_a_signal_comes_in_a_call(self):
        made, other = self.kind({b"a": self.values[0]}), self.kind.fromkeys(KEYS, self.values[1])
        seen = []

        def handle(*_):
            other[b"a"] = self.values[2]
            seen.append((other[b"a"], len([*other]), other.first(), other.pop(b"a")))
            signal.setitimer(signal.ITIMER_REAL, 0.001)

        before = signal.signal(signal.SIGALRM, handle)
        signal.setitimer(signal.ITIMER_REAL, 0.001)
        try:
            end = time.monotonic() + 30
            while len(seen) < 50 and time.monotonic() < end:
                self.assertEqual(made[b"a"], self.values[0])
                self.assertEqual(list(made.items()), [(b"a", self.values[0])])
                self.assertEqual(made.longest_prefix(b"ab"), (b"a", self.values[0]))
                self.assertEqual(made.last(), (b"a", self.values[0]))
        finally:
            signal.setitimer(signal.ITIMER_REAL, 0)
            signal.signal(signal.SIGALRM, before)
        self.assertGreater(len(seen), 2)
        one = (self.values[2], 2001, (b"0000", self.values[1]), self.values[2])
        self.assertEqual(set(seen), {one})

    def test_what_is_dropped_is_given_back(self):
        def taken():
            gc.collect()
            return self.heap().uordblks

        def work():
            made = self.kind.fromkeys(KEYS, self.values[2])
            versions = [made]
            for key in KEYS[:100]:
                versions.append(versions[-1].snapshot())
                versions[-1][key] = self.values[1]
                versions[-1].pop(KEYS[-1])
                versions[-1][KEYS[-1]] = self.values[0]
            walks = [iter(it.items()) for it in versions]
            for walk in walks:
                next(walk)
            [*made.diff(versions[-1])]
            self.kind.from_bytes(made.to_bytes()).clear()
            return taken()

        work()
        before = taken()
        within = work()
        self.assertGreater(within - before, 100_000)
        self.assertLess(abs(taken() - before), 20_000)

    def heap(self):
        """What malloc tells of its blocks."""

        class Info(ctypes.Structure):
            names = "arena ordblks smblks hblks hblkhd usmblks fsmblks uordblks fordblks keepcost"
            _fields_ = [(it, ctypes.c_size_t) for it in names.split()]

        library = ctypes.CDLL(None)
        if not hasattr(library, "mallinfo2"):
            self.skipTest("this C library doesn't tell what malloc has given")
        library.mallinfo2.restype = Info
        return library.mallinfo2()


class NumberThreads(Numbers, Threads, unittest.TestCase):
    pass


class BytesThreads(Strings, Threads, unittest.TestCase):
    pass


class Processes(unittest.TestCase):
    def test_a_forked_child_makes_no_call(self):
        made = NumberMap({b"a": 1})
        calls = (
            lambda: made[b"a"],
            lambda: made.__setitem__(b"a", 2),
            lambda: len(made),
            lambda: list(made),
            made.snapshot,
            made.to_bytes,
            BytesMap,
        )
        child = os.fork()
        if child == 0:
            refused, ignored = 0, []
            sys.unraisablehook = ignored.append
            for call in calls:
                try:
                    call()
                except ForkedProcess:
                    refused += 1
            del call, calls, made
            os._exit(refused + 100 * len(ignored))
        self.assertEqual(os.waitstatus_to_exitcode(os.waitpid(child, 0)[1]), 7)
        self.assertEqual(made, {b"a": 1})

    def test_a_child_that_is_spawned_is_sent_maps(self):
        with multiprocessing.get_context("spawn").Pool(1) as pool:
            made = BytesMap({b"a": b"one"}, number=7)
            sent = pool.apply(BytesMap.copy, (made,))
        self.assertEqual((sent, sent.number), (made, 8))

    def test_the_end_of_a_process_is_quiet(self):
        said = run(
            "import boltcomfrey, threading",
            "made = boltcomfrey.NumberMap({b'a': 1, b'b': 2})",
            "walk = iter(made.items())",
            "next(walk)",
            "boltcomfrey.kept = made.snapshot()",
            "cycle = [made.copy()]",
            "cycle.append(cycle)",
            "class Late:",
            "    def __init__(self, made):",
            "        self.made, self.me = made, self",
            "    def __del__(self):",
            "        print(self.made.first())",
            "late = Late(made)",
        )
        self.assertEqual(said, (0, "(b'a', 1)\n", ""))

    def test_a_finalizer_in_a_cycle_meets_its_map_whole(self):
        seen = []

        class Late:
            def __init__(self, made):
                self.me, self.made = self, made

            def __del__(self):
                seen.append(list(self.made))

        for kind, value in ((NumberMap, 1), (BytesMap, b"1")):
            made = kind({b"a": value})
            Late(made)
            del made
            gc.collect()
        self.assertEqual(seen, [[b"a"], [b"a"]])

    def test_refused_memory(self):
        said = run(
            "import resource",
            "from boltcomfrey import BytesMap",
            "made = BytesMap({b'tea': b'green', b'milk': b'm'})",
            "before = made.to_bytes()",
            "value = bytes(64 << 20)",
            "with open('/proc/self/statm') as file:",
            "    taken = int(file.read().split()[0]) * resource.getpagesize()",
            "resource.setrlimit(resource.RLIMIT_AS, (taken + (16 << 20),) * 2)",
            "for call in (",
            "    lambda: made.__setitem__(b'tea', value),",
            "    lambda: made.setdefault(b'salt', value),",
            "    lambda: made.add(b'salt', value),",
            "    lambda: made.replace(b'milk', value),",
            "    lambda: made.update({b'tea': value}),",
            "):",
            "    try:",
            "        call()",
            "    except MemoryError as error:",
            "        print(error, made.to_bytes() == before)",
        )
        self.assertEqual(said, (0, "the library was refused memory True\n" * 5, ""))

    def test_keys_that_begin_one_another_as_long_as_may_be(self):
        # (byte strings as values take more stack than numbers, and to load a map sets each key)
        said = run(
            "import hashlib",
            "from boltcomfrey import BytesMap",
            "from kinds import leb128",
            "data = b'comfrey' + bytes([1, 2]) + leb128(8193) * 2 + bytes([0, 0, 1, 55])",
            "for length in range(8192):",
            "    data += leb128(length) + bytes([1, 107, 1, 55])",
            "made = BytesMap.from_bytes(data + hashlib.sha256(data).digest(), longest_key=8192)",
            "later = made.snapshot()",
            "later[b'k' * 8192] = made.pop(b'k' * 8191)",
            "print(len(made), len(later), made.last()[0] == b'k' * 8192)",
            "print(len([*made.diff(later)]), len(made.prefix(b'k' * 8000)), made == later)",
            "print(len(made.to_bytes()) < len(later.to_bytes()))",
            "del made, later",
        )
        self.assertEqual(said, (0, "8192 8193 True\n1 192 False\nTrue\n", ""))


if __name__ == "__main__":
    unittest.main()
