# SPDX-License-Identifier: MIT OR Apache-2.0
"""Tests of the build of the package: what its wheels and its source archive have, and that pip installs them without a network."""

import base64
import hashlib
import os
import subprocess
import sys
import tarfile
import tempfile
import unittest
import venv
import zipfile
from pathlib import Path
from unittest import mock

PYTHON = Path(__file__).resolve().parent.parent
sys.path.insert(0, str(PYTHON))
import backend  # noqa: E402


class Wheels(unittest.TestCase):
    def setUp(self) -> None:
        room = tempfile.TemporaryDirectory()
        self.addCleanup(room.cleanup)
        self.room = Path(room.name)

    def members(self, name: str) -> "dict[str, bytes]":
        with zipfile.ZipFile(self.room / name) as archive:
            return {it: archive.read(it) for it in archive.namelist()}

    def test_record_has_all_files(self) -> None:
        with mock.patch.object(backend, "shared_object", return_value=None):
            members = self.members(backend.build_wheel(str(self.room)))
        record = next(name for name in members if name.endswith("/RECORD"))
        rows = [it.split(",") for it in members[record].decode().splitlines()]
        self.assertEqual({row[0] for row in rows}, set(members))
        for name, digest, size in rows[:-1]:
            found = base64.urlsafe_b64encode(hashlib.sha256(members[name]).digest()).rstrip(b"=").decode()
            self.assertEqual((digest, size), (f"sha256={found}", str(len(members[name]))))
        self.assertIn("kat/py.typed", members)

    def test_a_wheel_with_the_library_is_for_this_platform(self) -> None:
        library = self.room / "any.so"
        library.write_bytes(b"library")
        with mock.patch.dict(os.environ, {"KAT_LIBRARY": str(library)}):
            name = backend.build_wheel(str(self.room))
        self.assertRegex(name, r"^kat-[0-9.]+-py3-none-(?!any)\w+\.whl$")
        self.assertEqual(self.members(name)["kat/libkat.so.0"], b"library")

    def test_the_same_files_give_the_same_bytes(self) -> None:
        with mock.patch.object(backend, "shared_object", return_value=b"library"):
            name = backend.build_wheel(str(self.room))
            first = (self.room / name).read_bytes()
            self.assertEqual((self.room / backend.build_wheel(str(self.room))).read_bytes(), first)

    def test_source_archive_builds_a_wheel(self) -> None:
        name = backend.build_sdist(str(self.room))
        with tarfile.open(self.room / name) as archive:
            names = archive.getnames()
        top = name[: -len(".tar.gz")]
        self.assertLessEqual({f"{top}/{it}" for it in ("pyproject.toml", "backend.py", "PKG-INFO", "kat/__init__.py")}, set(names))

    def test_metadata_is_that_of_the_project(self) -> None:
        table = backend.project()
        self.assertIn(f"Name: kat\nVersion: {table['version']}\n", backend.metadata(table))

    def test_pip_installs_without_a_network(self) -> None:
        try:
            venv.create(self.room / "venv", with_pip=True)
        except (subprocess.CalledProcessError, OSError):
            self.skipTest("this Python makes no environment with pip")
        python = self.room / "venv/bin/python"
        quiet = {**os.environ, "PIP_DISABLE_PIP_VERSION_CHECK": "1", "PIP_NO_INDEX": "1", "PYTHONDONTWRITEBYTECODE": "1"}
        subprocess.run([python, "-m", "pip", "install", "-q", PYTHON], env=quiet, check=True, cwd=self.room)
        asked = "import kat; print(kat.__version__, kat.__file__)"
        ran = subprocess.run([python, "-c", asked], env=quiet, cwd=self.room, capture_output=True, text=True, check=True)
        version, place = ran.stdout.split(maxsplit=1)
        self.assertEqual(version, backend.project()["version"])
        self.assertIn(str(self.room), place)


if __name__ == "__main__":
    unittest.main()
