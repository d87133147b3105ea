"""The crates of a repository, as `crates.txt` lists them."""
import dataclasses
import os

# The parts of a crate that a check reads.
PARTS = ("src", "specs", "proofs")


@dataclasses.dataclass(frozen=True)
class Crate:
    """A crate: its folder, its line of crates.txt, and the libraries that this names."""

    name: str
    folder: str
    line: str
    of_repository: tuple
    of_toolchain: tuple

    def has(self, file):
        return os.path.isfile(f"{self.folder}/{file}")

    def text(self, file):
        with open(f"{self.folder}/{file}", encoding="utf-8") as it:
            return it.read()


class Repository:
    """A checkout: its crates by name, as `crates.txt` has them."""

    def __init__(self, root):
        self.root, self.crates = root, {}
        with open(f"{root}/crates.txt", encoding="utf-8") as file:
            lines = [it for it in (line.partition("#")[0].strip() for line in file) if it]
        names = [line.partition(":")[0].split()[0] for line in lines]
        for name, line in zip(names, lines):
            libraries = line.partition(":")[2].split()
            own = tuple(it for it in libraries if it in names)
            others = tuple(it for it in libraries if it not in names)
            self.crates[name] = Crate(name, f"{root}/crates/{name}", line, own, others)

    def below(self, crate):
        """The repository's crates below this one."""
        wanted, left = set(), [crate]
        while left:
            for name in left.pop().of_repository:
                if name not in wanted:
                    wanted.add(name)
                    left.append(self.crates[name])
        return [it for name, it in self.crates.items() if name in wanted]


def library(built, name):
    """Where a run of the toolchain left a built library, in the repository `built`."""
    return f"{built}/crates/{name}/out/rlib/{name}.rlib"
