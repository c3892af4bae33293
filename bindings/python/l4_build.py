#!/usr/bin/env python3
"""Copies the shared library that the package l4 loads beside its modules, and builds the package for pip and build (PEP 517, PEP 660).

The library is libl4.so in the folder that L4_LIB_DIR names, or else in the folder that pkg-config names. `make install-library` installs it
for both. A source distribution has no library: a wheel that is built from it gets the library in the same way.
"""
import argparse
import ast
import base64
import hashlib
import io
import os
import re
import shutil
import subprocess
import sys
import sysconfig
import tarfile
import time
import zipfile
from pathlib import Path
from typing import Any, Dict, List, Optional

HERE = Path(__file__).resolve().parent
# where the package loads the library from
BESIDE = HERE / "l4" / "libl4.so"
GET = (
    "make install-library PREFIX=$HOME/l4 proves and builds it; then set L4_LIB_DIR to $HOME/l4/lib, or PKG_CONFIG_PATH to $HOME/l4/lib/pkgconfig. "
    "make try-library builds it without proofs in a few minutes; then set L4_LIB_DIR to out/unproved/usr/lib in the folder of the repository"
)


class Unbuilt(Exception):
    """Why there is no shared library, and how to get it."""


def asked() -> str:
    """Returns the folder that pkg-config names for the library l4."""
    program = os.environ.get("PKG_CONFIG", "pkg-config")
    try:
        done = subprocess.run([program, "--variable=libdir", "l4"], stdout=subprocess.PIPE, stderr=subprocess.DEVNULL, text=True)
    except OSError as fault:
        raise Unbuilt(f"{program} can't be run ({fault.strerror}), and L4_LIB_DIR names no folder. Install pkg-config, or set L4_LIB_DIR. {GET}") from fault
    if done.returncode:
        raise Unbuilt(f"{program} knows no library l4, and L4_LIB_DIR names no folder. {GET}")
    return done.stdout.strip()


def find_library() -> Path:
    """Returns the file of the shared library. Raises Unbuilt if there is none."""
    folder = os.environ.get("L4_LIB_DIR") or asked()
    library = Path(folder) / "libl4.so"
    if not library.is_file():
        raise Unbuilt(f"{folder} has no libl4.so. {GET}")
    return library


def project(name: str) -> Any:
    """Returns the value of this key in pyproject.toml: a text, or a list of texts."""
    found = re.search(rf'^{name} = (".*"|\[[^\]]*\])$', (HERE / "pyproject.toml").read_text(), re.MULTILINE)
    if not found:
        raise Unbuilt(f"pyproject.toml has no {name}")
    return ast.literal_eval(found.group(1))


def platform_tag(library: bytes) -> str:
    """Returns the platform tag of a wheel with this library. If the library depends only on glibc, the wheel works on every Linux for this
    processor whose glibc is new enough (PEP 600); otherwise the tag is that of this machine."""
    own = re.sub("[-.]", "_", sysconfig.get_platform())
    needed = {name for name in re.findall(rb"\0((?:lib|ld-)[\w.+-]*\.so[.\d]*)(?=\0)", library) if not name.startswith(b"libl4.so.")}
    versions = [int(minor) for minor in re.findall(rb"\0GLIBC_2\.(\d+)", library)]
    if own.startswith("linux_") and versions and needed <= {b"libc.so.6", b"ld-linux-x86-64.so.2", b"ld-linux-aarch64.so.1"}:
        return f"manylinux_2_{max(5, *versions)}_{own[len('linux_'):]}"
    return own


def sources() -> Dict[str, bytes]:
    """Returns the files of the package, without the shared library."""
    folders = (HERE / "l4", HERE / "l4" / "views")
    files = [file for folder in folders for file in sorted(folder.iterdir()) if file.suffix in (".py", ".typed", ".html", ".css", ".mjs")]
    return {str(file.relative_to(HERE)): file.read_bytes() for file in files}


def metadata() -> str:
    """Returns the metadata of the package, as a wheel and a source distribution have it."""
    fields = [("Metadata-Version", "2.1"), ("Name", project("name")), ("Version", project("version")), ("Summary", project("description"))]
    fields += [("Requires-Python", project("requires-python")), ("Keywords", ",".join(project("keywords")))]
    fields += [*(("Classifier", name) for name in project("classifiers")), ("Description-Content-Type", "text/markdown")]
    return "".join(f"{field}: {value}\n" for field, value in fields) + "\n" + (HERE / project("readme")).read_text()


def digest(data: bytes) -> str:
    return base64.urlsafe_b64encode(hashlib.sha256(data).digest()).rstrip(b"=").decode()


def full_name() -> str:
    """Returns the name of the package with its version."""
    return f"{project('name')}-{project('version')}"


def write_wheel(directory: str, tag: str, files: Dict[str, bytes]) -> str:
    """Writes a wheel with these files and its metadata, and returns the name of the wheel."""
    name, is_pure = full_name(), str(tag.endswith("-any")).lower()
    files[f"{name}.dist-info/METADATA"] = metadata().encode()
    files[f"{name}.dist-info/WHEEL"] = f"Wheel-Version: 1.0\nGenerator: l4\nRoot-Is-Purelib: {is_pure}\nTag: {tag}\n".encode()
    record = [f"{file},sha256={digest(data)},{len(data)}\n" for file, data in files.items()]
    files[f"{name}.dist-info/RECORD"] = "".join([*record, f"{name}.dist-info/RECORD,,\n"]).encode()
    with zipfile.ZipFile(Path(directory) / f"{name}-{tag}.whl", "w", zipfile.ZIP_DEFLATED) as out:
        for file, data in files.items():
            out.writestr(file, data)
    return f"{name}-{tag}.whl"


def build_wheel(wheel_directory: str, config_settings: Any = None, metadata_directory: Any = None) -> str:
    """Writes the package with the shared library as a wheel (PEP 517), and returns the name of the wheel."""
    library = find_library().read_bytes()
    return write_wheel(wheel_directory, f"py3-none-{platform_tag(library)}", {**sources(), "l4/libl4.so": library})


def build_editable(wheel_directory: str, config_settings: Any = None, metadata_directory: Any = None) -> str:
    """Copies the shared library beside the modules, writes a wheel that names this folder (PEP 660), and returns the name of the wheel."""
    shutil.copyfile(find_library(), BESIDE)
    return write_wheel(wheel_directory, "py3-none-any", {"l4.pth": f"{HERE}\n".encode()})


def build_sdist(sdist_directory: str, config_settings: Any = None) -> str:
    """Writes a source distribution, from which the package can be built (PEP 517), and returns the name of the file."""
    name = full_name()
    rest = {file: (HERE / file).read_bytes() for file in ("pyproject.toml", "README.md", "l4_build.py")}
    with tarfile.open(Path(sdist_directory) / f"{name}.tar.gz", "w:gz", format=tarfile.PAX_FORMAT) as out:
        for file, data in {"PKG-INFO": metadata().encode(), **rest, **sources()}.items():
            member = tarfile.TarInfo(f"{name}/{file}")
            member.size, member.mtime = len(data), int(time.time())
            out.addfile(member, io.BytesIO(data))
    return f"{name}.tar.gz"


def main(words: Optional[List[str]] = None) -> int:
    parser = argparse.ArgumentParser(description="Copies the shared library libl4.so beside the modules of the package.")
    parser.add_argument("--output", type=Path, default=BESIDE, help="the file to write [default: %(default)s]")
    options = parser.parse_args(words)
    try:
        shutil.copyfile(find_library(), options.output)
    except (Unbuilt, OSError) as why:
        print(f"error: {why}", file=sys.stderr)
        return 1
    return 0


if __name__ == "__main__":
    sys.exit(main())
