"""Trials of edits: many in one check of their crate, and alone what changes more than bodies.

The prover judges a function by its own body and by the contracts of what it calls. So edits of
different functions can stand in one copy of the crate, and each function says for itself whether
its goals are still proved. An edit is refused where its function has a goal of its own that is not.
With each check goes a control, a function that no edit of it touches, which must be proved: else
the check shows nothing. An edit of a definition is refused where its function, a law, is not proved
and an error says why; all others may rest on that definition too.
"""
import collections
import enum
import functools
import glob
import os
import re
import shutil
import tempfile
import threading
import time
import traceback

from .drawing import EveryEdit
from .prover import (
    NAMES, NOTED, PLACE, Room, functions_of, is_unread, is_well, own_pages, own_reason, run,
    toolchain, words_for,
)  # fmt: skip
from .tables import edits_of, function_around

BEGAN = time.monotonic()
PRINTING = threading.Lock()
# The most edits that one processor tries in turn, and as how many of them one that goes alone counts.
MOST, ALONE = 40, 3
# The end of an edit's trial, and what shows it.
Result = collections.namedtuple("Result", "label outcome why")


class Outcome(enum.Enum):
    """What a trial of an edit came to."""

    REFUSED = "refused"
    KEPT = "NOT REFUSED"
    BAD = "BAD EDIT"
    UNTRIED = "NOT TRIED"


def say(text):
    """Prints a line, with the minutes so far."""
    with PRINTING:
        print(f"{(time.monotonic() - BEGAN) / 60:5.1f}  {text}", flush=True)


class Edits:
    """The trials of edits of crates, of those that are chosen, and what came of each."""

    def __init__(self, chosen=EveryEdit()):
        self.chosen, self.results, self.known = chosen, [], []
        # Of each crate whose edits can't be tried, how many they are.
        self.left_out = []
        # The seconds of a processor that the edits of each crate took.
        self.seconds = collections.Counter()

    def trials(self, repository, built, name, functions):
        """Calls that try the edits of a crate that was proved as it stands, over the libraries
        below it, and that may go side by side."""
        crate, groups, room = repository.crates[name], [], 0
        edits = self._edits_of(crate)
        functions = functions or sorted({it.function for it in edits})
        for batch in batches_of(edits):
            wanted = len(batch) if batch[0].bodies else ALONE
            if room < wanted:
                groups, room = [*groups, []], MOST
            groups[-1].append(batch)
            room -= wanted
        made = (CrateTrial(repository, built, crate, functions) for _ in groups)
        return [functools.partial(self._try, *it) for it in zip(made, groups)]

    def _try(self, trial, batches):
        try:
            for batch in batches:
                for it in trial.results(batch):
                    self._end(it)
        except Exception:  # (one trial that breaks off ends no other)
            traceback.print_exc()
        trial.forget()
        self.seconds[trial.crate.name] += trial.seconds

    def try_all(self, repository, name):
        """Tries the edits of a crate, one after another, over the libraries in `out/`: it is checked
        as it stands first, which proves what is not proved yet of it and of those below it."""
        crate = repository.crates[name]
        said = run(["rt", "check", "--jobs", "1"], crate.folder, longest=None)
        if said.status:
            print("\n".join(said.lines))
            return self.leave_out(crate)
        say(f"{name} is proved")
        functions = functions_of("\n".join(said.lines), name)
        for trial in self.trials(repository, repository.root, name, functions):
            trial()

    def leave_out(self, crate):
        """Tells that the edits of a crate that is not proved as it stands can't be tried."""
        many = len(self._edits_of(crate))
        if many:
            self.left_out.append(f"{crate.name}: {many} edits NOT TRIED: it is not proved as it is")
            say(self.left_out[-1])

    def of(self, crate):
        """The edits of a crate that are tried, and those that cannot be."""
        good, bad = edits_of(crate)
        return [it for it in good if self.chosen.takes(it)], bad

    def _edits_of(self, crate):
        good, bad = self.of(crate)
        self.known += [it.label for it in good] + [label for label, _ in bad]
        for label, why in bad:
            self._end(Result(label, Outcome.BAD, why))
        return good

    def _end(self, result):
        self.results.append(result)
        say(_told(result))

    def unrefused(self):
        """Of each edit that was not refused what came of it."""
        bad = [_told(it) for it in self.results if it.outcome is not Outcome.REFUSED]
        return [*bad, *self.left_out]

    def counts(self):
        """How many edits were refused, and how many not: one of which nothing came is one of them."""
        refused = sum(it.outcome is Outcome.REFUSED for it in self.results)
        return refused, len(self.known) - refused


def unread(repository, crate):
    """What the prover says of a crate's edits of bodies that it cannot read, over the libraries in
    `out/`: it checks each batch of them, and no function."""
    good, bad = edits_of(crate)
    command = [f"{toolchain()}/bin/rattle", "check", *words_for(repository, repository.root, crate)]
    for label, why in bad:
        yield f"{label}: {why}"
    for batch in (it for it in batches_of(good) if it[0].bodies):
        texts = texts_of(batch)
        with Room(crate, texts) as folder:
            said = run([*command, "--only", "of_no_name"], folder)
        lines = [it for it in said.lines if is_unread(it, texts)]
        # (one that came to its end says that there is no such function)
        for line in lines or [it for it in said.lines[-1:] if "`of_no_name`" not in it]:
            yield f"{crate.name}: {' '.join(it.name for it in edits_at(line, batch))}: {line}"


def _told(result):
    return f"{result.label}: {result.outcome.value}: {result.why[:160]}"


def batches_of(edits):
    """Edits in batches, in none of which two change one function; those that change more than
    bodies alone."""
    batches = []
    for edit in edits:
        fits = (it for it in batches if len(it) < MOST and not any(_meet(edit, one) for one in it))
        room = next(fits, None) if edit.bodies else None
        if room is None:
            batches.append([edit])
        else:
            room.append(edit)
    return batches


def _meet(edit, other):
    return not other.bodies or edit.bodies & other.bodies or edit.function == other.function


class CrateTrial:
    """The trials of one crate's edits, over the libraries that were built below it. `functions` are
    those that the prover told of in a check of the crate as it stands, in the order of the check."""

    def __init__(self, repository, built, crate, functions):
        self.repository, self.crate, self.functions = repository, crate, functions
        self.command = words_for(repository, built, crate)
        self.recursive = self._recursive()
        self.seconds, self.kept = 0.0, None

    def _recursive(self):
        """The last names of functions that call themselves or stand in a cycle: the prover keeps a
        proof of theirs elsewhere, so that none can stand in for it."""
        folders = glob.glob(f"{self.crate.folder}/proofs/**/+*", recursive=True)
        found = {os.path.basename(it)[1:] for it in folders}
        for file in glob.glob(f"{self.crate.folder}/src/**/*.rt", recursive=True):
            text = self.crate.text(os.path.relpath(file, self.crate.folder))
            found |= {*re.findall(r"#\[cycle\(\w+\)\](?:\s*(?:#\[|//).*)*\s*[^\n]*?\bfn (\w+)", text)}
        return found

    def forget(self):
        """Has the next check begin with nothing, and not over what the one before kept."""
        if self.kept:
            shutil.rmtree(self.kept, ignore_errors=True)
        self.kept = None

    def results(self, batch, controls=None, is_first=True):
        """The results of a batch. What a check of several shows nothing of goes alone; where it
        shows nothing of any, the others once more without those at which it tells of an error. A
        check of one that went amiss is made once more."""
        texts, is_alone = texts_of(batch), not batch[0].bodies
        controls = self._controls(batch, is_first) if controls is None else controls
        said = self._check(batch, texts, controls)
        verdicts = said.verdicts(self.crate)
        well = {it for it in controls if self._stands(verdicts.get(it), batch)}
        if is_alone and well < controls:
            # (they rest on the definition, and may be to blame. Without any one begins with nothing)
            self.forget() if not well else None
            return self.results(batch, well, is_first)
        is_sound = said.is_sound and bool(well or is_alone)
        if not is_sound:
            self.forget()
        if len(batch) == 1 and not is_sound and is_first:
            return self.results(batch, is_first=False)
        whys = [is_sound and self._refusal(it, batch, said, verdicts, texts) for it in batch]
        found = [Result(it.label, Outcome.REFUSED, why) for it, why in zip(batch, whys) if why]
        left = [it for it, why in zip(batch, whys) if not why]
        if len(batch) == 1:
            return found or [self._unrefused(batch[0], said, verdicts, texts, is_sound)]
        named = [it for it in left if any(it in edits_at(line, batch) for line in said.errors)]
        alone = left if is_sound or not named else named
        others = [it for it in left if it not in alone]
        for part in [*([it] for it in alone), *([others] if others else [])]:
            found += self.results(part)
        return found

    def _controls(self, batch, is_first):
        """A function that no edit of the batch names: the first that was checked, which calls
        nothing and is soon proved; and where a check went amiss, the last too, which nothing
        calls."""
        named = {it.function for it in batch}
        found = [it for it in self.functions if it not in named and self._may_be_control(it)]
        return {*found[:1]} if is_first else {*found[:1], *found[-1:]}

    def _check(self, batch, texts, controls):
        """Checks a batch's functions, and controls, in the crate with these texts."""
        asked = {it.function for it in batch} | controls
        self.kept = self.kept or tempfile.mkdtemp(prefix="edits-kept-")
        only = [word for it in sorted(asked) for word in ("--only", it)]
        check = [f"{toolchain()}/bin/rattle", "check", *self.command, "--incremental", self.kept]
        room = Room(self.crate, texts)
        with room as folder:
            room.dig(it for it in self.functions if it not in asked and self._has_proof(it))
            said = run([*check, *only, "--allow-holes"], folder)
        self.seconds += said.seconds
        return said

    def _may_be_control(self, name):
        return self._has_proof(name) and "+" not in name and not self._is_by_hand(name)

    def _has_proof(self, name):
        """Whether a file can stand in for the proof of a function: not of a closure, which is
        proved with the function around it, nor of what drops a value of the repository's types."""
        short, owner = name.rpartition("::")[2], name.split("++")[0]
        if "fn" in name.split("::") or not short.islower() or short in self.recursive:
            return False
        return "++" not in name or owner not in {"Destruct", *self.repository.crates}

    def _is_by_hand(self, name):
        return self.crate.has(f"proofs/{name.replace('::', '/')}/Proof.antt")

    def _refusal(self, edit, batch, said, verdicts, texts):
        """Why a sound check shows an edit refused: its function, or a closure in it, is not proved
        by a goal of its own; else None. What cannot be read shows nothing. What changes more than
        bodies is tried alone, so all that fails does by it, as a page of lemmas."""
        for line in (it for it in said.lines if is_unread(it, texts)):
            if edit in (edits_at(line, batch) or [edit]):
                return None
        noted = [it for it in said.lines if NOTED.match(it) and edit in edits_at(it, batch)]
        for name in (it for it in verdicts if _is_in(it, edit.function)):
            kind, why = verdicts[name]
            if kind not in ("not proved", "no proof"):
                continue
            pages = tuple(f"{it.replace('.', '/')}/" for it in own_pages(name, "proofs."))
            errors = [it for it in said.errors if not edit.bodies or it.startswith(pages)]
            plain = next((it for it in errors if not NAMES.search(it)), None)
            reason = own_reason(self.crate, name, why)
            if reason and (plain or not errors):
                return plain or f"{name}: {reason}"
            if plain and not (edit.bodies and self._blames(why, verdicts)):
                return plain
            if noted and not self._is_by_hand(name):
                return noted[0]
        return None

    def _stands(self, verdict, batch):
        """Whether a control is proved, or would be but for what it calls of the batch."""
        called = verdict and self._called(verdict[1])
        return is_well(verdict) or bool(called) and {*called} <= {it.function for it in batch}

    def _blames(self, why, verdicts):
        """Whether something that a function calls may be to blame for what isn't proved of it. What
        only waits for a hole is not: its contract stands."""
        waits = (verdicts.get(it, ("",))[0] == "depends on a hole" for it in self._called(why))
        return bool(why.strip(" :;")) and not (self._called(why) and all(waits))

    def _called(self, why):
        """The functions for which alone another one is not proved; none where there is more."""
        parts = [it for it in why.strip(" :;").split("; ") if it]
        is_of_calls = all(it.startswith("it calls `") for it in parts)
        return re.findall(rf"`{self.crate.name}::([^`]+)`", why) if is_of_calls else []

    def _unrefused(self, edit, said, verdicts, texts, is_sound):
        """What became of an edit that a check of it alone does not show to be refused."""
        bad = re.compile(r"error\[|has no function `")
        unread = [it for it in said.lines if is_unread(it, texts) or not is_sound and bad.search(it)]
        told = verdicts.get(edit.function, ("nothing is told of it",))
        if unread:
            return Result(edit.label, Outcome.BAD, f"it cannot be read: {unread[0]}")
        if is_sound and is_well(told):
            return Result(edit.label, Outcome.KEPT, f"{edit.function} is proved with it")
        why = "" if is_sound else f"its check shows nothing: {said.status}, {said.lines[-1][:60]}; "
        return Result(edit.label, Outcome.UNTRIED, f"{why}{edit.function}: {' '.join(told)}")


def _is_in(name, function):
    """Whether a function is this one or a closure in it."""
    plain = "::".join(it for it in name.split("::") if it != "fn")
    return plain == function or plain != name and plain.startswith(f"{function}::")


def texts_of(batch):
    """The files of a batch with all its edits. No line of them moves."""
    if not batch[0].bodies:
        return batch[0].texts
    texts = {}
    spots = sorted(it for edit in batch for it in edit.spots)
    for file, start, end, new in reversed(spots):
        text = texts.get(file) or batch[0].crate.text(file)
        texts[file] = text[:start] + new + text[end:]
    return texts


def edits_at(line, batch):
    """The edits of the function that a line of a check is about."""
    it = PLACE.match(line)
    if not it or not batch[0].crate.has(it[1]):
        return []
    lines = batch[0].crate.text(it[1]).split("\n")
    at = min(int(it[2]), len(lines)) - 1
    places = {(it[1], at), (it[1], function_around(lines, at))}
    return [edit for edit in batch if edit.bodies and places & edit.bodies]
