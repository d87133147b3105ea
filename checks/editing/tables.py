"""Edits: small faults that the prover must refuse, each a line or two exchanged for others.

A crate's table `edits.txt` has a block for each, and an empty line behind it:

    NAME: FUNCTION
    FILE
    - TEXT
    + TEXT

With the second text in place of the first, which stands in FILE once, the prover is to refuse
FUNCTION, by its own name for it: the function whose body is edited, or one that rests on what is. A
block may exchange several texts, and name several files. Lines that begin with `#` are comments. A
file of `must-fail` says the same in the toolchain's words, the function in a line `# refused at: `.
"""
import collections
import dataclasses
import os
import re

from .repository import PARTS

HEAD = re.compile(r'( *)(pub(\([a-z:]+\))? )?(unsafe )?(extern "C" )?fn (\w+)')
# A file, where it is another one, a text of it, and the text in its place.
PAIR = re.compile(r"(?:([^-+\s]\S*)\n)?- (.*)\n\+(?: (.*))?(?:\n|$)")
Spot = collections.namedtuple("Spot", "file start end new")


class BadEdit(Exception):
    """An edit that cannot be applied, and why."""


@dataclasses.dataclass(eq=False)
class Edit:
    """An edit of a crate: the function that it is refused at, and the texts that it exchanges."""

    crate: object
    name: str
    function: str
    pairs: list
    # Whether it stands in the folder `must-fail`, and not in the table.
    is_of_folder: bool
    # The crate's files with the edit; what it exchanges in them; the functions in whose bodies that
    # stands, by file and line, or None where it changes more than bodies.
    texts: dict = dataclasses.field(default_factory=dict)
    spots: list = dataclasses.field(default_factory=list)
    bodies: set | None = None

    @property
    def label(self):
        return f"{self.crate.name}/{self.name}"

    @property
    def as_written(self):
        return self.name, self.function, self.pairs

    def apply(self):
        """Finds what it changes. A text that it takes out stands there once."""
        if not self.function or not self.pairs:
            raise BadEdit("it names no function, or exchanges nothing")
        for file, old, new in self.pairs:
            if not file.startswith(tuple(f"{it}/" for it in PARTS)) or not self.crate.has(file):
                raise BadEdit(f"there is no file {file} of its crate")
            text = self.texts.get(file) or self.crate.text(file)
            if old == new:
                raise BadEdit(f"it changes nothing: {old}")
            if not old or text.count(old) != 1:
                raise BadEdit(f"its text is in {file} {text.count(old)} times, not once: {old}")
            self.texts[file] = text.replace(old, new)
            at = self.crate.text(file).find(old)
            self.spots.append(Spot(file, at, at + len(old), new))
        bodies = {self._body(*it) for it in zip(self.pairs, self.spots)}
        self.bodies = None if None in bodies else bodies

    def _body(self, pair, spot):
        """The function in whose body a text stands, if what is exchanged for it stays there."""
        file, old, new = pair
        text = self.crate.text(file)
        is_whole = all(old.count(a) - old.count(b) == new.count(a) - new.count(b)
                       for a, b in ("{}", "()", "[]"))  # fmt: skip
        # (a text that stands there only once another was exchanged has no place of its own)
        is_plain = is_whole and text.count(old) == 1 and "*/" not in old + new
        if not is_plain or not file.startswith("src/"):
            return None
        line = function_around(text.split("\n"), text[: spot.start].count("\n"))
        return None if line is None else (file, line)


def function_around(lines, at):
    """The line on which the function begins in whose body a line of a formatted text stands; None
    where there is none, and where its body is more than its own: it is `const` or in a cycle."""
    for head in range(at, -1, -1):
        it = HEAD.match(lines[head])
        if not it:
            continue
        same = [n for n in range(head, len(lines)) if re.match(rf"{it[1]}\S", lines[n])]
        begins = next((n for n in same if lines[n].endswith("{")), at)
        ends = next((n for n in same if re.search(r"^ *\}$|\{\}$|;$", lines[n])), at)
        above = head - 1
        while above >= 0 and lines[above].strip().startswith(("#[", "///")):
            above -= 1
        is_in_cycle = any("#[cycle" in lines[n] for n in range(above + 1, head))
        return head if begins < at < ends and not is_in_cycle else None
    return None


def edits_of(crate):
    """The edits of a crate, and for each that cannot be read or applied its name and why."""
    good, bad, seen = [], [], set()
    table = edits_of_text(crate.text("edits.txt") if crate.has("edits.txt") else "")
    written = [Edit(crate, *it, is_of_folder=True) for it in _of_folder(crate)]
    for edit in [*written, *(Edit(crate, *it, is_of_folder=False) for it in table)]:
        try:
            if edit.name in seen:
                raise BadEdit("another edit of its crate has its name")
            seen.add(edit.name)
            edit.apply()
            good.append(edit)
        except BadEdit as why:
            bad.append((edit.label, str(why)))
    return good, bad


def edits_of_text(table):
    """The edits that a table's text has: of each its name, its function and what it exchanges."""
    text = re.sub(r"(?m)^#.*\n", "", table).strip("\n")
    for block in re.split(r"\n\n+", text) if text else ():
        head, _, pairs = block.partition("\n")
        name, _, function = head.partition(": ")
        yield name, function.strip(), _pairs(pairs)


def _of_folder(crate):
    folder = f"{crate.folder}/must-fail"
    for file in sorted(os.listdir(folder)) if os.path.isdir(folder) else ():
        text = crate.text(f"must-fail/{file}")
        function = re.search(r"(?m)^# refused at: (.*)$", text)
        for words, ours in (("#.*\n", ""), ("file: ", ""), ("old: ", "- "), ("new:", "+")):
            text = re.sub(f"(?m)^{words}", ours, text)
        yield file.removesuffix(".edit"), function[1] if function else "", _pairs(text.strip("\n"))


def _pairs(text):
    """The files and texts of an edit; none where its lines are not as they should be."""
    found, file, end = [], "", 0
    for it in PAIR.finditer(text):
        if it.start() != end:
            return []
        end, file = it.end(), it[1] or file
        found.append((file, it[2], it[3] or ""))
    return found if end == len(text) else []
