# SPDX-License-Identifier: MIT OR Apache-2.0
"""Builds the wheel and the source archive of the package by Python's standard library (PEP 517 and 660), so that pip needs
neither a network nor setuptools.

The wheel has the shared object of the library beside the package, if it can be had: the file that the variable KAT_LIBRARY names,
or what release/share of the repository links (it needs a C compiler, or the Rattle kit). Otherwise the wheel is of Python alone,
and the library is searched for when the package is used.
"""

import base64
import configparser
import hashlib
import io
import json
import os
import re
import subprocess
import sys
import sysconfig
import tarfile
import tempfile
import zipfile
from pathlib import Path
from typing import Any, Dict, Optional

HERE = Path(__file__).resolve().parent
SHARE = HERE.parent / "release/share"
# The status of release/share where something that it needs is missing.
CANNOT_SHARE = 3
LIBRARY = "libkat.so.0"
# The earliest time of a member of a zip archive, so that the same files give the same bytes.
TIME = (1980, 1, 1, 0, 0, 0)


def project() -> Dict[str, Any]:
    """The table [project] of pyproject.toml, with the version of the package."""
    parser = configparser.ConfigParser(interpolation=None)
    parser.read(HERE / "pyproject.toml")
    table = {key: json.loads(value) for key, value in parser["project"].items()}
    version = re.search(r'^VERSION = "(.*)"$', (HERE / "kat/_version.py").read_text(), re.MULTILINE)
    assert version, "kat/_version.py has no version"
    return {**table, "version": version[1]}


def metadata(table: Dict[str, Any]) -> str:
    rows = [("Metadata-Version", "2.1"), ("Name", table["name"]), ("Version", table["version"]), ("Summary", table["description"]),
            ("License", table["license"]), ("Requires-Python", table["requires-python"])]
    return "".join(f"{key}: {value}\n" for key, value in rows)


def shared_object() -> Optional[bytes]:
    """The shared object of the library, or None where there is none and none can be linked."""
    named = os.environ.get("KAT_LIBRARY")
    if named:
        return Path(named).read_bytes()
    if not SHARE.is_file():
        return None
    with tempfile.TemporaryDirectory() as room:
        linked = Path(room, LIBRARY)
        status = subprocess.run([SHARE, linked], stdout=sys.stderr).returncode
        if status == CANNOT_SHARE:
            return None
        if status:
            raise RuntimeError(f"{SHARE} ended with {status}")
        return linked.read_bytes()


def package_files() -> Dict[str, bytes]:
    return {f"kat/{it.name}": it.read_bytes() for it in sorted((HERE / "kat").iterdir()) if it.suffix in (".py", ".typed")}


def write_wheel(folder: str, files: Dict[str, bytes], tag: str) -> str:
    """Writes a wheel with the files and what describes them, and gives its name."""
    table = project()
    described = f"{table['name']}-{table['version']}.dist-info"
    pure = str(tag.endswith("-any")).lower()
    files = {**files, f"{described}/METADATA": metadata(table).encode(),
             f"{described}/WHEEL": f"Wheel-Version: 1.0\nGenerator: kat\nRoot-Is-Purelib: {pure}\nTag: {tag}\n".encode()}
    rows = []
    for name, content in files.items():
        digest = base64.urlsafe_b64encode(hashlib.sha256(content).digest()).rstrip(b"=").decode()
        rows.append(f"{name},sha256={digest},{len(content)}\n")
    files[f"{described}/RECORD"] = "".join([*rows, f"{described}/RECORD,,\n"]).encode()
    wheel = f"{table['name']}-{table['version']}-{tag}.whl"
    with zipfile.ZipFile(Path(folder, wheel), "w", zipfile.ZIP_DEFLATED) as archive:
        for name, content in files.items():
            member = zipfile.ZipInfo(name, TIME)
            member.external_attr, member.compress_type = 0o644 << 16, zipfile.ZIP_DEFLATED
            archive.writestr(member, content)
    return wheel


def build_wheel(wheel_directory: str, config_settings: Any = None, metadata_directory: Any = None) -> str:
    library = shared_object()
    if library is None:
        print("kat: the wheel has no shared object of the library; KAT_LIBRARY may name one", file=sys.stderr)
        return write_wheel(wheel_directory, package_files(), "py3-none-any")
    platform = re.sub(r"[^a-z0-9_]", "_", sysconfig.get_platform().lower())
    return write_wheel(wheel_directory, {**package_files(), f"kat/{LIBRARY}": library}, f"py3-none-{platform}")


def build_editable(wheel_directory: str, config_settings: Any = None, metadata_directory: Any = None) -> str:
    return write_wheel(wheel_directory, {"kat.pth": f"{HERE}\n".encode()}, "py3-none-any")


def build_sdist(sdist_directory: str, config_settings: Any = None) -> str:
    table = project()
    top = f"{table['name']}-{table['version']}"
    files = {**package_files(), "backend.py": Path(__file__).read_bytes(), "pyproject.toml": (HERE / "pyproject.toml").read_bytes(),
             "PKG-INFO": metadata(table).encode()}
    with tarfile.open(Path(sdist_directory, f"{top}.tar.gz"), "w:gz", format=tarfile.PAX_FORMAT) as archive:
        for name, content in files.items():
            member = tarfile.TarInfo(f"{top}/{name}")
            member.size = len(content)
            archive.addfile(member, io.BytesIO(content))
    return f"{top}.tar.gz"
