"""Builds the wheel, with the shared object inside, by nothing but Python's own library.

SLH_C_LIBRARY is the absolute path of the folder that `examples/c/build` made. Wheels of the same
files have the same bytes.
"""

import base64
import hashlib
import os
import re
import tomllib
import zipfile
from pathlib import Path

_HERE = Path(__file__).resolve().parent.parent
_PACKAGE = _HERE / "src" / "slh_dsa"
_MACHINES = {62: "x86_64", 183: "aarch64"}  # e_machine of ELF


def _version():
    text = (_PACKAGE / "_version.py").read_text()
    return re.search(r'^__version__ = "(.*)"$', text, re.MULTILINE).group(1)


def _library(version):
    """The path of the shared object, which has to be of the package's version."""
    folder = os.environ.get("SLH_C_LIBRARY", "")
    if not os.path.isabs(folder):
        raise SystemExit("SLH_C_LIBRARY has to be the absolute path of what examples/c/build made")
    header = (Path(folder) / "slh_dsa.h").read_text()
    given = re.search(r'^#define SLH_DSA_VERSION "(.*)"$', header, re.MULTILINE).group(1)
    if given != version:
        raise SystemExit(f"the library is of version {given}, the package of {version}")
    return (Path(folder) / "libslh_dsa.so").resolve(strict=True)


def _tag(library):
    """The platform that a shared object is made for."""
    head = library.read_bytes()[:20]
    if head[:6] != b"\x7fELF\x02\x01":
        raise SystemExit(f"{library} is no shared object of 64 bits for Linux")
    return f"py3-none-linux_{_MACHINES[int.from_bytes(head[18:20], 'little')]}"


def _metadata(project, version):
    lines = [
        "Metadata-Version: 2.1",
        f"Name: {project['name']}",
        f"Version: {version}",
        f"Summary: {project['description']}",
        f"License: {project['license']['text']}",
        f"Requires-Python: {project['requires-python']}",
    ]
    return "\n".join(lines) + "\n"


def _record(files, place):
    """The list of a wheel's files with their digests."""
    rows = []
    for name, data in files.items():
        digest = base64.urlsafe_b64encode(hashlib.sha256(data).digest()).rstrip(b"=").decode()
        rows.append(f"{name},sha256={digest},{len(data)}")
    return "\n".join([*rows, f"{place},,"]) + "\n"


def _files(project, version, library, tag):
    """What the wheel has, by the names."""
    sources = [*_PACKAGE.glob("*.py"), _PACKAGE / "py.typed"]
    files = {f"slh_dsa/{path.name}": path.read_bytes() for path in sorted(sources)}
    files[f"slh_dsa/{library.name}"] = library.read_bytes()
    info = f"{project['name'].replace('-', '_')}-{version}.dist-info"
    for name in ("LICENSE-APACHE", "LICENSE-MIT", "NOTICE"):
        files[f"{info}/{name}"] = (_HERE.parent.parent / name).read_bytes()
    files[f"{info}/METADATA"] = _metadata(project, version).encode()
    wheel = ["Wheel-Version: 1.0", "Generator: wheel_with_library", "Root-Is-Purelib: false"]
    files[f"{info}/WHEEL"] = "\n".join([*wheel, f"Tag: {tag}", ""]).encode()
    files[f"{info}/RECORD"] = _record(files, f"{info}/RECORD").encode()
    return files


def build_wheel(wheel_directory, config_settings=None, metadata_directory=None):
    """Makes the wheel, and tells its name (PEP 517)."""
    project = tomllib.loads((_HERE / "pyproject.toml").read_text())["project"]
    version = _version()
    library = _library(version)
    tag = _tag(library)
    name = f"{project['name'].replace('-', '_')}-{version}-{tag}.whl"
    with zipfile.ZipFile(Path(wheel_directory) / name, "w", zipfile.ZIP_DEFLATED) as wheel:
        for place, data in _files(project, version, library, tag).items():
            entry = zipfile.ZipInfo(place)
            entry.external_attr = 0o644 << 16
            wheel.writestr(entry, data, zipfile.ZIP_DEFLATED)
    return name
