"""The package as pip installs it, without a network: its files, and its commands."""
import base64
import hashlib
import os
import re
import subprocess
import sys
import unittest
from pathlib import Path
from typing import Dict
from zipfile import ZipFile

from support import EXAMPLES, SCRIPTS, TOP, FolderTest, Said, load_file

BACKEND = load_file("wheel_backend", TOP / "tools" / "wheel_backend.py")
NAMES = sorted(path.name for path in SCRIPTS.glob("polcert-*"))
MODULES = {path.relative_to(TOP / "python").as_posix(): path.read_bytes() for path in TOP.glob("python/polcert/**/*.py")}


def unpacked(wheel: Path) -> Dict[str, bytes]:
    with ZipFile(wheel) as archive:
        return {name: archive.read(name) for name in archive.namelist()}


class Package(FolderTest):
    def pip(self, *words: str) -> None:
        """Installs something into the folder `to`, from the files of this tree alone."""
        command = [sys.executable, "-m", "pip", "install", "--no-index", "--quiet", "--disable-pip-version-check", "--target"]
        done = subprocess.run([*command, str(self.folder / "to"), *words], stdout=subprocess.PIPE, stderr=subprocess.STDOUT)
        self.assertEqual(done.returncode, 0, done.stdout.decode(errors="replace"))

    def run_installed(self, name: str, *words: str, first: str = "") -> Said:
        """Runs an installed command. `first` is a folder whose modules come before all others."""
        environment = {**os.environ, "PYTHONPATH": f"{first}:{self.folder / 'to'}", "PYTHONDONTWRITEBYTECODE": "1"}
        done = subprocess.run([str(self.folder / "to/bin" / name), *words], env=environment, stdout=subprocess.PIPE, stderr=subprocess.PIPE)
        return Said(done.returncode, done.stdout, done.stderr.decode())

    def installed(self) -> Dict[str, bytes]:
        """The modules that are installed."""
        folder = self.folder / "to"
        return {path.relative_to(folder).as_posix(): path.read_bytes() for path in folder.glob("polcert/**/*.py")}

    def test_pip_install(self) -> None:
        self.pip(str(TOP))
        self.assertEqual(self.installed(), MODULES)
        self.assertTrue((self.folder / "to/polcert/py.typed").exists())
        self.assertEqual(sorted(path.name for path in (self.folder / "to/bin").iterdir()), NAMES)
        late = Path(self.file("fractions.py", b"import os, signal, time\nos.kill(os.getpid(), signal.SIGINT)\ntime.sleep(9)\n"))
        for name in NAMES:
            self.assertRegex(self.run_installed(name, "--help").out.decode(), rf"\Ausage: {name} ")
            stopped = self.run_installed(name, "--help", first=str(late.parent))
            self.assertEqual((stopped.status, stopped.out, stopped.err), (130, b"", f"{name}: interrupted\n"))
        evaluated = self.run_installed("polcert-evaluate", *(str(EXAMPLES / f"tiger.{ending}") for ending in ("POMDP", "pg")))
        self.assertEqual((evaluated.status, evaluated.out), (0, (EXAMPLES / "tiger.alpha").read_bytes()))

    def test_an_archive_of_the_sources(self) -> None:
        self.pip(str(self.folder / BACKEND.build_sdist(str(self.folder))))
        self.assertEqual(self.installed(), MODULES)
        self.assertEqual(sorted(path.name for path in (self.folder / "to/bin").iterdir()), NAMES)

    def test_the_wheel(self) -> None:
        name = BACKEND.build_wheel(str(self.folder))
        files, about = unpacked(self.folder / name), f"{name[:-len('-py3-none-any.whl')]}.dist-info"
        self.assertLessEqual(MODULES.keys(), files.keys())
        record = [line.split(",") for line in files[f"{about}/RECORD"].decode().splitlines()]
        self.assertEqual({row[0] for row in record}, files.keys())
        for path, said, size in record:
            if path != f"{about}/RECORD":
                digest = hashlib.sha256(files[path]).digest()
                self.assertEqual((base64.urlsafe_b64decode(said[len("sha256="):] + "="), int(size)), (digest, len(files[path])))
        first = (self.folder / name).read_bytes()
        BACKEND.build_wheel(str(self.folder))
        self.assertEqual((self.folder / name).read_bytes(), first)

    def test_an_editable_one_leads_to_the_tree(self) -> None:
        files = unpacked(self.folder / BACKEND.build_editable(str(self.folder)))
        self.assertEqual(files["polcert.pth"].decode().splitlines(), [str(TOP / "python")])
        self.assertFalse(MODULES.keys() & files.keys())


class Names(unittest.TestCase):
    def test_each_command_has_a_script_in_both_manners(self) -> None:
        commands = (path.stem.replace("_", "-") for path in TOP.glob("python/polcert/commands/*.py"))
        self.assertEqual(sorted(f"polcert-{name}" for name in commands if not name.startswith("-")), NAMES)
        self.assertEqual(re.findall(r'^(polcert-\S+) = "polcert\.launch:launch_by_name"$', (TOP / "pyproject.toml").read_text(), re.M), NAMES)
