"""Checks of a crate with other texts by the prover, and what is read off its words."""
import dataclasses
import functools
import os
import pathlib
import re
import resource
import shutil
import subprocess
import tempfile

from .repository import PARTS, library

# The most that a check may take, in seconds of a processor, before it counts for nothing. (Not of a
# clock: while the proofs run an edit is given little of the processors.)
LONGEST = 1800
# What stands in for proofs.
ASSUMED = "pub assumed : {A : Type 2} → A\nassumed = ?\n"
# A function that is not proved, and why; or one that is, but for holes that stand elsewhere.
VERDICT = re.compile(
    r"fn (\S+): (not proved|no proof|could not tell|no holes|proved|depends on a hole)(.*)"
)
# How the prover tells of a goal of a function's own that it did not prove.
OWN_GOAL = re.compile(r"`search` did not prove|does not cover|has an `ensures\*`")
# How it, or what stands around it, tells that a check itself went amiss.
AMISS = re.compile(
    r"started the check over|marked it as unusable|marked only this run's"
    r"|Run the lower steps again|ran out of memory"
)
# How it tells of a limit of its own, which is no verdict.
LIMIT = re.compile(
    r"antt ran out of (?:stack|the (?:steps|memory) that the check of one declaration may)"
    r"|(?:outgrew the memory limit|stopped at the step limit) \("
)
# What is said where all that fails is that a proof file names what an edit took away.
NAMES = re.compile(r"has no field|is not in scope|has no `|was not admitted")
# How it tells of a text that it cannot read.
UNREAD = re.compile(
    r"is not in scope|has no field|is no name|operand is missing|expected the end|cannot continue"
)
# How it notes, at a line of a function's body, what it did not prove there.
NOTED = re.compile(r"note: (?:\./)?src/\S+: it is not proved that ")
# What a function's proof stands on, where that is not proved.
STANDS_ON = re.compile(r"`Rattle\.(\w+)\.proofs\.([^`]+)`")
# The place in a file that it speaks of.
PLACE = re.compile(r"(?:note: )?(?:\./)?(\S+?\.(?:rt|antt)):(\d+):\d+: ")


@functools.lru_cache(maxsize=None)
def toolchain():
    """The folder of the toolchain."""
    ran = subprocess.run(["rt", "doc"], capture_output=True, text=True, check=True)
    return os.path.dirname(ran.stdout.strip())


def words_for(repository, built, crate):
    """The words by which the prover checks a crate over the libraries below it."""
    kit = toolchain()
    listed = [f"{it}={kit}/rlibs/{it}.rlib" for it in ("std", *crate.of_toolchain)]
    listed += [f"{it}={library(built, it)}" for it in crate.of_repository]
    below = (os.path.dirname(library(built, it.name)) for it in repository.below(crate))
    found = ["--crate-name", crate.name, f"src/{'main' if crate.has('src/main.rt') else 'lib'}.rt"]
    found += [word for it in listed for word in ("--extern", it)]
    found += [word for it in (f"{kit}/rlibs", *below) for word in ("-L", f"dependency={it}")]
    found += ["--antt-project", f"{kit}/rattle/logic/antt-project.json"]
    found += ["--crate-type", "staticlib"] if " staticlib:" in crate.line else []
    return [*found, "--logic-built", f"{kit}/logic_built", "--jobs", "1"]


def archive_words(repository, built, crate):
    """The words that build a static library, as `rt lib` does, over the libraries below it."""
    kit = toolchain()
    how = ["--toolchain", f"{kit}/toolchain", "--links", f"{crate.name}=", "--backend", "llvm"]
    words = [*words_for(repository, built, crate), *how, "-o", f"lib{crate.name}.a"]
    return [f"{kit}/bin/rattle", "build", *words]


def run(words, folder, longest=LONGEST):
    """What a command says in a folder: its status, its lines, and the seconds of a processor that
    it took. It is ended where one of its processes takes more of a processor than `longest`."""
    with tempfile.TemporaryFile() as out:
        how = {"stdin": subprocess.DEVNULL, "stdout": out, "stderr": subprocess.STDOUT}
        ran = subprocess.Popen(words, cwd=folder, **how)
        if longest:
            resource.prlimit(ran.pid, resource.RLIMIT_CPU, (longest, longest))
        _, status, used = os.wait4(ran.pid, 0)
        ran.returncode = os.waitstatus_to_exitcode(status)
        out.seek(0)
        lines = out.read().decode(errors="replace").splitlines()
        return Said(ran.returncode, lines or [""], used.ru_utime + used.ru_stime)


def functions_of(said, name):
    """The functions of a crate, as a check of it told of them."""
    return re.findall(rf"(?m)^fn {name}::(\S+): proved$", said)


@dataclasses.dataclass
class Said:
    """What a check said: its status and its lines, and the seconds of a processor that it took."""

    status: int
    lines: list
    seconds: float = 0.0

    @property
    def is_sound(self):
        """Whether the check came to its end and nothing went amiss."""
        is_whole = self.status in (0, 1) and self.lines[-1].startswith("only=")
        return is_whole and not any(AMISS.search(it) for it in self.lines)

    @property
    def errors(self):
        """The errors that it tells of, but for those that are a limit of the prover."""
        errors = (it.removeprefix("./") for it in self.lines if ": error" in it)
        return [it for it in errors if not LIMIT.search(it)]

    def verdicts(self, crate):
        """What was said of each function of the crate that was checked, and why."""
        told = (VERDICT.match(it) for it in self.lines)
        own = ((it[1].split("::", 1), it) for it in told if it)
        return {name[1]: (it[2], it[3]) for name, it in own if name[0] == crate.name}


def is_well(verdict):
    return verdict is not None and verdict[0] in ("no holes", "proved", "depends on a hole")


def is_unread(line, texts):
    """Whether the prover could not read a text, where one that only makes a statement false reads
    well."""
    it = re.match(r"(?:\./)?(\S+?):\d+:\d+: error(?:\[[\w-]+\])?: (?:(`[^`]*`): )?(.*)", line)
    if not it or it[1] not in texts and not it[1].startswith(("src/", "specs/")):
        return False
    said = re.sub(r"`[^`]*`", "", it[3])
    # (a clause is a statement, and is proved elsewhere)
    is_clause = it[2] and it[2].startswith(("`ensures", "`requires"))
    return not it[2] or it[1].startswith("specs/") or bool(is_clause or UNREAD.search(said))


def own_pages(name, before=""):
    """Where the proof of a function stands, which may be in a cycle of its own."""
    path, _, short = f"{before}{name.replace('::', '.')}".rpartition(".")
    return [".".join(filter(None, [path, it])) for it in (short, f"+{short}")]


def own_reason(crate, name, why):
    """Why a function is not proved, where that is a goal of its own and not only that what it calls
    is not proved; else None. `why` is what the prover said of it."""
    for part in why.strip(" :;").split("; "):
        if part.startswith("it calls `"):
            continue
        places = [it[2] for it in STANDS_ON.finditer(part) if it[1] == crate.name]
        own = tuple(f"{it}." for it in own_pages(name))
        is_own = any(it.startswith(own) for it in places)
        if OWN_GOAL.search(part) or is_own and "which antt refuses" in part:
            return part
    return None


class Room(tempfile.TemporaryDirectory):
    """A copy of a crate, in which it is checked with other texts."""

    def __init__(self, crate, texts):
        super().__init__(prefix="edits-")
        self.crate = crate
        for part in PARTS:
            if os.path.isdir(f"{crate.folder}/{part}"):
                shutil.copytree(f"{crate.folder}/{part}", f"{self.name}/{part}")
        for file, text in texts.items():
            self._write(file, text)

    def _write(self, file, text):
        path = pathlib.Path(self.name, file)
        path.parent.mkdir(parents=True, exist_ok=True)
        path.write_text(text, encoding="utf-8")

    def dig(self, functions):
        """Leaves one hole in place of the proofs of all these functions. What calls them is then
        checked by their contracts alone, and they are not proved once more."""
        self._write("proofs/Assumed.antt", ASSUMED)
        with open(f"{self.name}/proofs/Lib.antt", "a", encoding="utf-8") as it:
            it.write("mod Assumed\n")
        proofs = f"Rattle.{self.crate.name}.proofs"
        for function in functions:
            path, short = function.replace("::", "/"), function.rpartition("::")[2]
            for file in ("Answers.antt", "Invariants.antt"):
                pathlib.Path(self.name, "proofs", path, file).unlink(missing_ok=True)
            text = f"use {proofs}.Assumed.{{assumed}}\n"
            text += f"use {proofs}.{path.replace('/', '.')}.Statement.{{statement}}\n\n"
            text += f"pub {short}_spec : {{M : Type 1}} → statement M\n{short}_spec = assumed\n"
            self._write(f"proofs/{path}/Proof.antt", text)
