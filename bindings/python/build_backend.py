#!/usr/bin/env python3
"""Builds the package, for pip by PEP 517 and 660; and its sources, and a wheel with each of these shared libraries:

    build_backend.py LIBRARY.. FOLDER

It needs nothing but Python, so that `pip install` of this folder works without a network. Times are those of SOURCE_DATE_EPOCH,
and names are in order, so that the bytes are always the same. A wheel with a library is for any Linux with its processor.
"""
import base64
import gzip
import hashlib
import io
import os
import re
import subprocess
import sys
import tarfile
import time
import zipfile
from typing import Any, Dict, List, Optional, Tuple

HERE = os.path.dirname(os.path.abspath(__file__))
PACKAGE = ["gix_refspec/__init__.py", "gix_refspec/py.typed"]
LICENCES = ["LICENSE-APACHE", "LICENSE-MIT"]
OTHERS = ["README.md", "build_backend.py", "examples/planner.py", "pyproject.toml", "tests/test_gix_refspec.py"]
FIRST_TIME = 315532800  # of a zip file: 1980

Files = List[Tuple[str, bytes]]
Settings = Optional[Dict[str, Any]]


def read(*path: str) -> bytes:
    with open(os.path.join(HERE, *path), "rb") as file:
        return file.read()


def moment() -> int:
    return max(FIRST_TIME, int(os.environ.get("SOURCE_DATE_EPOCH", FIRST_TIME)))


def metadata() -> Tuple[str, bytes]:
    """The version of the project, and what an index is told of it, from pyproject.toml."""
    project = read("pyproject.toml").decode()
    one = dict(re.findall(r'^([a-z-]+) = "(.*)"$', project, re.M))
    licence = re.findall(r'^license = \{ text = "(.*)" \}$', project, re.M)
    lines = ["Metadata-Version: 2.1", f"Name: {one['name']}", f"Version: {one['version']}", f"Summary: {one['description']}",
             f"License: {licence[0]}", f"Requires-Python: {one['requires-python']}",
             *(f"Classifier: {classifier}" for classifier in re.findall(r'^    "(.* :: .*)",$', project, re.M)),
             *(f"License-File: {name}" for name in LICENCES), "Description-Content-Type: text/markdown", ""]
    return one["version"], "\n".join(lines).encode() + b"\n" + read("README.md")


def tags_of(library: str) -> List[str]:
    """The platforms of a shared library that asks for no other, so for glibc and for musl: the oldest that the tags can tell."""
    told = subprocess.run(["readelf", "-h", "-d", "-V", library], stdout=subprocess.PIPE, text=True, check=True,
                          env={**os.environ, "LC_ALL": "C"}).stdout
    processor = {"Advanced Micro Devices X86-64": "x86_64", "AArch64": "aarch64"}[re.findall(r"Machine: +(.*)", told)[0]]
    if "(NEEDED)" in told or "GLIBC_" in told:
        sys.exit(f"{library} asks for another library")
    return [f"{system}_{processor}" for system in ("manylinux_2_17", "manylinux2014", "musllinux_1_1")]


def record_of(files: Files, name: str) -> bytes:
    """The file of a wheel that has the sizes and the digests of the others."""
    lines = []
    for path, content in files:
        digest = base64.urlsafe_b64encode(hashlib.sha256(content).digest()).rstrip(b"=").decode()
        lines.append(f"{path},sha256={digest},{len(content)}\n")
    return "".join([*lines, f"{name},,\n"]).encode()


def package() -> Files:
    """The files of the module."""
    return [(path, read(path)) for path in PACKAGE]


def write_wheel(folder: str, tags: List[str], content: Files) -> str:
    """Writes a wheel for these platforms, and returns its name."""
    version, told = metadata()
    info = f"gix_refspec-{version}.dist-info"
    wheel = ["Wheel-Version: 1.0", "Generator: build_backend", f"Root-Is-Purelib: {str(tags == ['any']).lower()}",
             *(f"Tag: py3-none-{tag}" for tag in tags), ""]
    files = [*content, *((f"{info}/{name}", read(name)) for name in LICENCES),
             (f"{info}/METADATA", told), (f"{info}/WHEEL", "\n".join(wheel).encode())]
    files.append((f"{info}/RECORD", record_of(files, f"{info}/RECORD")))
    name = f"gix_refspec-{version}-py3-none-{'.'.join(tags)}.whl"
    with zipfile.ZipFile(os.path.join(folder, name), "w") as archive:
        for path, data in files:
            entry = zipfile.ZipInfo(path, time.gmtime(moment())[:6])
            entry.external_attr = 0o644 << 16
            entry.compress_type = zipfile.ZIP_DEFLATED
            archive.writestr(entry, data)
    return name


def build_wheel(wheel_directory: str, config_settings: Settings = None, metadata_directory: Optional[str] = None) -> str:
    """A wheel without a library, for a system that has it."""
    return write_wheel(wheel_directory, ["any"], package())


def build_editable(wheel_directory: str, config_settings: Settings = None, metadata_directory: Optional[str] = None) -> str:
    """A wheel for `pip install -e` (PEP 660): Python imports the module from this folder."""
    return write_wheel(wheel_directory, ["any"], [("gix_refspec.pth", os.fsencode(HERE) + b"\n")])


def build_sdist(sdist_directory: str, config_settings: Settings = None) -> str:
    version, told = metadata()
    front = f"gix_refspec-{version}"
    plain = io.BytesIO()
    with tarfile.open(fileobj=plain, mode="w", format=tarfile.PAX_FORMAT) as archive:
        for path, content in [("PKG-INFO", told), *((path, read(path)) for path in sorted(PACKAGE + LICENCES + OTHERS))]:
            entry = tarfile.TarInfo(f"{front}/{path}")
            entry.size, entry.mtime = len(content), moment()
            archive.addfile(entry, io.BytesIO(content))
    with open(os.path.join(sdist_directory, f"{front}.tar.gz"), "wb") as file:
        file.write(gzip.compress(plain.getvalue(), 9, mtime=moment()))
    return f"{front}.tar.gz"


def main() -> None:
    if len(sys.argv) < 3:
        sys.exit(__doc__)
    folder = sys.argv[-1]
    soname = re.findall(r'^_SONAME = "(.*)"$', read(PACKAGE[0]).decode(), re.M)
    for library in sys.argv[1:-1]:
        with open(library, "rb") as file:
            print(write_wheel(folder, tags_of(library), [*package(), (f"gix_refspec/{soname[0]}", file.read())]))
    print(build_sdist(folder))


if __name__ == "__main__":
    main()
