"""The processes that a run has begun: what they do, what they take, and their end."""
import collections
import contextlib
import ctypes
import os
import re
import shutil
import signal
import tempfile
import threading
import time

PR_SET_CHILD_SUBREAPER = 36
TICKS = os.sysconf("SC_CLK_TCK")
# Over how many looks, one a second, a watch tells how much of the processors is free.
LOOKS = 5
# In a process's words the crate that the prover reads, and the script or archive that it makes.
CRATE = re.compile(r"--crate-name (\w+)")
SCRIPT = re.compile(r"(?:checks|ffi)/\w+(?=$| )|lib\w+\.a$")
Process = collections.namedtuple("Process", "parent state seconds began")


def _words(process, file):
    """What a file of /proc says of a process; nothing where it has ended."""
    with contextlib.suppress(OSError), open(f"/proc/{process}/{file}", encoding="utf-8") as it:
        return it.read()
    return ""


def below():
    """The processes below this one, those above before those below: of each its parent, its state,
    the seconds of a processor that it took, and when it began."""
    processes = filter(str.isdigit, os.listdir("/proc"))
    said = {it: _words(it, "stat").rpartition(")")[2].split() for it in processes}
    children = collections.defaultdict(list)
    for process, words in said.items():
        if words:
            children[words[1]].append(process)
    found, left = {}, [str(os.getpid())]
    while left:
        parent = left.pop()
        for it in children[parent]:
            words = said[it]
            seconds = sum(map(int, words[11:13])) / TICKS
            found[it] = Process(parent, words[0], seconds, words[19])
        left += children[parent]
    return found


def end_all_below():
    """Ends each process below this one."""
    while alive := [it for it, process in below().items() if process.state != "Z"]:
        for it in alive:
            with contextlib.suppress(OSError):
                os.kill(int(it), signal.SIGKILL)
        time.sleep(0.1)


class Room:
    """A folder for all that a run writes, removed at its end. Where a signal ends the run, all
    processes that it began are ended first."""

    def __enter__(self):
        # (what its children leave stays below it)
        ctypes.CDLL(None).prctl(PR_SET_CHILD_SUBREAPER, 1, 0, 0, 0)
        self.name = tempfile.mkdtemp(prefix="test-")
        # (programs are run in it as a user who may do nothing)
        os.chmod(self.name, 0o711)
        os.environ["TMPDIR"] = tempfile.tempdir = f"{self.name}/for-a-time"
        os.mkdir(tempfile.tempdir)
        os.chmod(tempfile.tempdir, 0o1777)
        for it in (signal.SIGINT, signal.SIGTERM, signal.SIGHUP):
            # (nohup, and a shell that runs something in the background, have some ignored)
            if signal.getsignal(it) is not signal.SIG_IGN:
                signal.signal(it, self._end)
        return self.name

    def __exit__(self, *_):
        end_all_below()
        shutil.rmtree(self.name, ignore_errors=True)

    def _end(self, number, _frame):
        # (what threads say of the files that go is of no use)
        nowhere = os.open(os.devnull, os.O_WRONLY)
        os.dup2(nowhere, 1)
        os.dup2(nowhere, 2)
        for _ in range(2):
            # (a thread may begin something, or write, between the first end and the removal)
            self.__exit__()
        os._exit(128 + number)


class Watch(threading.Thread):
    """Looks each second what runs below this process, how much of the processors is free, and how
    much memory."""

    def __init__(self):
        super().__init__(daemon=True)
        self.began, self.processors = time.monotonic(), os.sched_getaffinity(0)
        self.memory_before = self.memory_least = _free_memory()
        self.looks = collections.deque([self._look()], LOOKS + 1)
        # The seconds of a processor that each kind of work took, by its name; what ran in each
        # minute, and how much of a processor.
        self.seconds, self.busy = collections.Counter(), collections.Counter()
        self.ran = collections.defaultdict(set)
        self._seen = {}
        self.start()

    def run(self):
        while True:
            time.sleep(1)
            self.memory_least = min(self.memory_least, _free_memory())
            self.looks.append(self._look())
            self._count(int((time.monotonic() - self.began) / 60))

    def _count(self, minute):
        kinds = {}
        for process, it in below().items():
            kinds[process] = kinds.get(it.parent) or _kind(process)
            if kinds[process]:
                more = it.seconds - self._seen.get((process, it.began), 0)
                self._seen[process, it.began] = it.seconds
                self.seconds[kinds[process]] += more
                self.busy[minute] += more
                self.ran[minute].add(kinds[process])

    def _look(self):
        """Of the processors that this process may use the time so far, and that of what doesn't give
        way."""
        total = hurried = 0
        for line in _words("", "stat").splitlines():
            it = re.match(r"cpu(\d+) (.*)", line)
            if it and int(it[1]) in self.processors:
                user, nice, system, idle, waiting, *others = map(int, it[2].split()[:8])
                total += user + nice + system + idle + waiting + sum(others)
                hurried += user + system + sum(others)
        return total, hurried

    def free(self):
        """How many processors do nothing, or only what gives way."""
        total, hurried = (now - before for before, now in zip(self.looks[0], self.looks[-1]))
        return len(self.processors) * (1 - hurried / total) if total else 0.0

    def most_memory(self):
        """The most that was taken at a time, in GB."""
        return (self.memory_before - self.memory_least) / 1e6

    def table(self):
        """What ran in which minutes, and on how many processors."""
        lines = ["| minute | proofs | their tests | edits of | scripts | processors |", "|" + "---|" * 6]
        for minute in range(max(self.ran, default=-1) + 1):
            cells = (", ".join(sorted(it for part, it in self.ran[minute] if part == kind)) or "-"
                     for kind in ("proof", "tests", "edits", "script"))  # fmt: skip
            lines.append(f"| {minute} | {' | '.join(cells)} | {self.busy[minute] / 60:.1f} |")
        return "\n".join(lines)


def _kind(process):
    """What a process does for the run, and for which crate or script, as far as its words tell."""
    words = _words(process, "cmdline").replace("\0", " ").strip()
    crate, script = CRATE.search(words), SCRIPT.search(words)
    if script:
        return "script", script[0]
    if not crate:
        return None
    with contextlib.suppress(OSError):
        if "/edits-" in os.readlink(f"/proc/{process}/cwd"):
            return "edits", crate[1]
    return "tests" if " --test" in words else "proof", crate[1]


def _free_memory():
    """In kB."""
    found = re.search(r"MemAvailable: *(\d+)", _words("", "meminfo"))
    return int(found[1]) if found else 0
