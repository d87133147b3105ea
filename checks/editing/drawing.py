"""Which edits a run tries: all, or those that are likeliest to tell something and a part of the rest.

The part is the one of four that the commit's own id draws, so that nobody chooses it and each comes
up. With it go the edits of the folders `must-fail/`, and those that were written, or whose file was
changed, since an earlier commit.
"""
import enum
import functools
import hashlib
import subprocess

from .tables import edits_of, edits_of_text

PARTS = 4


class Why(enum.Enum):
    """Why an edit is tried."""

    FOLDER = "of the folders must-fail"
    LATE = "of what has changed"
    DRAWN = "of the part that is drawn"
    LEFT = "not tried"


class EveryEdit:
    """All edits."""

    def takes(self, _edit):
        return True

    def told(self, repository, names):
        many = sum(len(edits_of(repository.crates[it])[0]) for it in names)
        return f"all of {many} edits are tried"


class LateAndDrawn:
    """Edits of what changed since the commit `since`, and of the others the part that is drawn; only
    these where the checkout does not have that commit."""

    def __init__(self, root, since):
        self.root = root
        self.commit = self._git("rev-parse", "HEAD").strip()
        self.since = self._git("rev-parse", "--verify", "--quiet", f"{since}^{{commit}}").strip()
        self.part = int(self.commit or "0", 16) % PARTS
        self.changed = set()
        if self.since:
            self.changed |= {*self._git("diff", "--name-only", self.since).splitlines()}
            self.changed |= {*self._git("ls-files", "-o", "--exclude-standard").splitlines()}

    def _git(self, *words):
        ran = subprocess.run(["git", *words], cwd=self.root, capture_output=True, text=True)
        return ran.stdout if ran.returncode == 0 else ""

    @functools.lru_cache(maxsize=None)
    def _written_before(self, name):
        """What the table of a crate had at the earlier commit."""
        return [*edits_of_text(self._git("show", f"{self.since}:crates/{name}/edits.txt"))]

    def _is_late(self, edit):
        name = edit.crate.name
        is_changed = any(f"crates/{name}/{file}" in self.changed for file in edit.texts)
        return is_changed or edit.as_written not in self._written_before(name)

    def why(self, edit):
        if edit.is_of_folder:
            return Why.FOLDER
        if self.since and self._is_late(edit):
            return Why.LATE
        number = int(hashlib.sha256(edit.label.encode()).hexdigest(), 16)
        return Why.DRAWN if number % PARTS == self.part else Why.LEFT

    def takes(self, edit):
        return self.why(edit) is not Why.LEFT

    def told(self, repository, names):
        whys = [self.why(it) for name in names for it in edits_of(repository.crates[name])[0]]
        folder, late, drawn, left = map(whys.count, Why)
        since = f"since {self.since[:8]}" if self.since else "(which is not known: no such commit)"
        return (
            f"{len(whys) - left} of {len(whys)} edits are tried: {folder} {Why.FOLDER.value}, {late}"
            f" {Why.LATE.value} {since}, and of the other {drawn + left} part {self.part + 1} of"
            f" {PARTS}, which the commit draws: {drawn}"
        )
