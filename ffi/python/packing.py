"""Packs the package as a wheel, for pip: the sources, what the header declares, and the library.

It is the backend of pyproject.toml, and asks for nothing but cffi, so that it serves where no other
backend is installed. `libboltcomfrey.so` stands in src/boltcomfrey, where `ffi/shared` of the
repository and a release put it; `boltcomfrey.h` beside this file, or a folder above it.
"""

import base64
import hashlib
import re
import tempfile
import tomllib
import zipfile
from pathlib import Path

import cffi

HERE = Path(__file__).resolve().parent
PACKAGE = HERE / "src" / "boltcomfrey"
LIBRARY = PACKAGE / "libboltcomfrey.so"
# The library is built for this processor.
TAG = "py3-none-linux_x86_64"
# The earliest date that an archive can have, so that a wheel is the same whenever it is made.
DATE = (1980, 1, 1, 0, 0, 0)


def header():
    """The header of the library, without its comments."""
    found = [it for it in (HERE / "boltcomfrey.h", HERE.parent / "boltcomfrey.h") if it.is_file()]
    if not found:
        raise FileNotFoundError(f"there is no boltcomfrey.h in {HERE} or above it")
    return re.sub(r"//.*", "", found[0].read_text(encoding="utf-8"))


def version(text):
    """The version of the library, which is the package's too."""
    return re.search(r'^#define RART_RELEASE "(.*)"$', text, re.M)[1]


def declarations(text):
    """What the header declares, for cffi: the types, the constants and the functions. Walks aren't
    among them, which C has as inlines."""
    text = re.sub(r"#ifdef __cplusplus\n.*?#endif\n", "", text, flags=re.S)
    types = r"^typedef (?:uint8_t \w+;|struct (?!\w*walk)rart_\w+ \{.*?\} rart_\w+;)"
    constants, calls = r"^enum \{.*?\};", r"^\w+ rart_\w+\([^{};]*\);"
    found = [it for kind in (types, constants, calls) for it in re.findall(kind, text, re.M | re.S)]
    return "\n".join(found).replace("RART_ALONE", "")


def declared(text):
    """The module that declares the library to cffi, so that nothing is parsed at each import."""
    ffi = cffi.FFI()
    ffi.cdef(declarations(text))
    ffi.set_source("boltcomfrey._declared", None)
    with tempfile.TemporaryDirectory() as folder:
        file = Path(folder) / "_declared.py"
        ffi.emit_python_code(str(file))
        return f'{file.read_text(encoding="utf-8")}\nVERSION = "{version(text)}"\n'


def metadata(text):
    """What pip is told of the package."""
    project = tomllib.loads((HERE / "pyproject.toml").read_text(encoding="utf-8"))["project"]
    lines = [
        "Metadata-Version: 2.1",
        f"Name: {project['name']}",
        f"Version: {version(text)}",
        f"Summary: {project['description']}",
        f"License: {project['license']}",
        f"Keywords: {','.join(project['keywords'])}",
        *(f"Classifier: {it}" for it in project["classifiers"]),
        f"Requires-Python: {project['requires-python']}",
        *(f"Requires-Dist: {it}" for it in project["dependencies"]),
        "Description-Content-Type: text/markdown",
    ]
    readme = (HERE / project["readme"]).read_text(encoding="utf-8")
    return "\n".join(lines) + f"\n\n{readme}"


def licences():
    """The licence and the notice, beside this file or at the top of the repository."""
    for name in ("LICENSE", "NOTICE"):
        found = [it / name for it in (HERE, *HERE.parents[:2]) if (it / name).is_file()]
        yield name, found[0].read_bytes()


def contents(info):
    """The files of the wheel, each with its bytes."""
    if not LIBRARY.is_file():
        raise FileNotFoundError(
            f"{LIBRARY} is not there: `ffi/shared ARCHIVE FOLDER` of the repository makes it"
        )
    text = header()
    for file in sorted(PACKAGE.glob("*")):
        if file.suffix in (".py", ".typed", ".so") and file.name != "_declared.py":
            yield f"boltcomfrey/{file.name}", file.read_bytes()
    yield "boltcomfrey/_declared.py", declared(text).encode()
    for name, data in licences():
        yield f"{info}/{name}", data
    yield f"{info}/METADATA", metadata(text).encode()
    wheel = f"Wheel-Version: 1.0\nGenerator: boltcomfrey\nRoot-Is-Purelib: false\nTag: {TAG}\n"
    yield f"{info}/WHEEL", wheel.encode()


def row(name, data):
    """A file's row of the wheel's record."""
    digest = base64.urlsafe_b64encode(hashlib.sha256(data).digest()).rstrip(b"=").decode()
    return f"{name},sha256={digest},{len(data)}\n"


def build_wheel(wheel_directory, config_settings=None, metadata_directory=None):
    """Writes the wheel into a folder, and gives its name."""
    stem = f"boltcomfrey-{version(header())}"
    info, name = f"{stem}.dist-info", f"{stem}-{TAG}.whl"
    files = dict(contents(info))
    rows = "".join(row(*it) for it in files.items()) + f"{info}/RECORD,,\n"
    with zipfile.ZipFile(Path(wheel_directory) / name, "w") as wheel:
        for file, data in {**files, f"{info}/RECORD": rows.encode()}.items():
            entry = zipfile.ZipInfo(file, DATE)
            entry.external_attr = 0o644 << 16
            entry.compress_type = zipfile.ZIP_DEFLATED
            wheel.writestr(entry, data)
    return name
