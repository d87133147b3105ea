"""What `./test` runs side by side: the toolchain over all crates, scripts, and the trials of edits."""
import itertools
import os
import queue
import re
import shutil
import subprocess
import threading
import time

from editing.prover import functions_of, run
from editing.repository import Repository
from editing.trial import BEGAN, say

# How much of a processor is to be free where something that gives way begins.
MOSTLY = 0.7


class Build:
    """A run of `rt ci` in a copy of the crates without edits. Of all crates each proof is made from
    nothing, where the toolchain can be told so; where some are named, what an earlier run on this
    machine proved of the same texts is taken, by the toolchain's own sums. `repository` is a copy
    with the edits: of the crates what is tried is what stood there when it began."""

    def __init__(self, root, room, names=()):
        self.folder, self.log, self.is_anew = f"{room}/copy", f"{room}/log", not names
        self.seconds, self.status = 0.0, None
        copy_crates(Repository(root), f"{room}/texts", names)
        self.repository = Repository(f"{room}/texts")
        copy_crates(self.repository, self.folder, leave=("must-fail", "edits.txt"))

    def __enter__(self):
        knows = any("--anew" in it for it in run(["rt", "help"], self.folder).lines)
        words = ["rt", "ci", *(["--anew"] if self.is_anew and knows else [])]
        with open(self.log, "wb") as log:
            how = {"cwd": self.folder, "stdin": subprocess.DEVNULL, "stdout": log, "stderr": log}
            self.process = subprocess.Popen(words, **how)
        self.waiter = threading.Thread(target=self._wait)
        self.waiter.start()
        return self

    def __exit__(self, *_):
        self.process.terminate()
        self.waiter.join()

    def _wait(self):
        _, status, used = os.wait4(self.process.pid, 0)
        self.process.returncode = self.status = os.waitstatus_to_exitcode(status)
        self.seconds = used.ru_utime + used.ru_stime

    def text(self):
        with open(self.log, encoding="utf-8", errors="replace") as it:
            return it.read()

    def ended(self):
        """The crates whose proofs have ended so far, each with what came of it, in order: proved, kept
        from an earlier run, or NOT PROVED."""
        told = re.findall(r"(?m)^rt: (\w+) (proved|is kept|NOT PROVED)\b", self.text())
        return {name: how.removeprefix("is ") for name, how in told}

    def functions(self, name):
        """The functions of a crate that the run proved, in the order in which it did; none of a crate
        that a toolchain kept from an earlier run."""
        part = re.search(rf"(?ms)^== {name}$.*?^rt: {name} proved$", self.text())
        return functions_of(part[0] if part else "", name)

    def follow(self, then):
        """Calls `then` with each crate as its proofs end, and what came of it."""
        told = {}
        while self.waiter.is_alive() or told != self.ended():
            for name, how in self.ended().items():
                if name not in told:
                    told[name] = how
                    then(name, how)
            time.sleep(1)

    def failed(self):
        """What the run told of that failed: crates and programs, and each test."""
        told = re.findall(r"(?m)^(?:rt: )?(FAILED: .*|.* NOT PROVED.*|test \S+ \.\.\. FAILED)$", self.text())
        return list(dict.fromkeys(told))

    def counts(self):
        """How many crates passed, and how many parts of them failed: one where the run did."""
        last = re.findall(r"(?m)^(\d+) passed, (\d+) failed", self.text())
        passed, failed = map(int, last[-1]) if last else (0, 1)
        return passed, failed or int(self.status != 0)


def copy_crates(repository, to, names=(), leave=()):
    """Copies the crates, or those named and what stands below them, without what was built."""
    wanted = {*names} or {*repository.crates}
    wanted |= {it.name for name in wanted for it in repository.below(repository.crates[name])}
    ignored = shutil.ignore_patterns("out", *leave)
    for name in wanted:
        shutil.copytree(repository.crates[name].folder, f"{to}/crates/{name}", ignore=ignored)
    with open(f"{to}/crates.txt", "w", encoding="utf-8") as file:
        rows = (it.line for name, it in repository.crates.items() if name in wanted)
        file.writelines(f"{row}\n" for row in rows)
    shutil.copyfile(f"{repository.root}/HANDLES", f"{to}/HANDLES")


class Lanes:
    """Calls side by side, each of which gives way to all else: while the toolchain proves, one begins
    where a processor is free, and behind it as many as there are processors."""

    def __init__(self, watch):
        self.watch, self.is_alone = watch, threading.Event()
        self.queue, self.numbers = queue.PriorityQueue(), itertools.count()
        self.turn, self.counting, self.running = threading.Lock(), threading.Lock(), 0
        self.lost = []
        self.lanes = [threading.Thread(target=self._work, daemon=True) for _ in watch.processors]
        for it in self.lanes:
            it.start()

    def put(self, *calls, is_urgent=False):
        for it in calls:
            self.queue.put((0 if is_urgent else 1, next(self.numbers), it))

    def _work(self):
        # (what a thread begins is as nice as the thread)
        os.setpriority(os.PRIO_PROCESS, threading.get_native_id(), 19)
        while call := self._next():
            try:
                call()
            except Exception as lost:  # (one call that breaks off ends no other)
                self.lost.append(lost)
            with self.counting:
                self.running -= 1

    def _next(self):
        with self.turn:
            while not self.is_alone.is_set() and self.watch.free() - self.running < MOSTLY:
                self.is_alone.wait(1)
            _, _, call = self.queue.get()
            with self.counting:
                self.running += 1
            return call

    def end(self):
        """Gives all processors to what is left, and waits for its end."""
        self.is_alone.set()
        for _ in self.lanes:
            self.queue.put((2, next(self.numbers), None))
        for it in self.lanes:
            it.join()
        for it in self.lost:
            raise it


class Scripts:
    """Scripts and commands, each of which tells what it shows, or fails."""

    def __init__(self):
        self.said, self.failed = [], []

    def run(self, *words, folder="."):
        said = run([*words], folder)
        # (each tells what it shows)
        said.status = said.status or int(not said.lines[-1].strip())
        self.said.append(said)
        how = f"FAILED: {words[0]}: " if said.status else ""
        self.failed += [f"FAILED: {words[0]}"] if said.status else []
        say(how + ("\n" + 7 * " ").join(said.lines[0 if said.status else -1 :]))
        return not said.status

    def counts(self):
        passed = sum(not it.status for it in self.said)
        return passed, len(self.said) - passed
