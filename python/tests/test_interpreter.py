"""tools/python: which interpreter the tests get, and what happens where none has all that they take."""
import os
import subprocess
import sys
from typing import Optional

from support import TOP, FolderTest, Said

NAMES = ("python3", *(f"python3.{minor}" for minor in range(9, 15)))


class Interpreters(FolderTest):
    """Runs of the tool on a path on which each Python has nothing."""

    def setUp(self) -> None:
        super().setUp()
        self.tool = self.program("tool", (TOP / "tools/python").read_text().replace("/usr/bin/python3", "/none/python3"))
        for name in NAMES:
            self.program(name, "#!/bin/sh\nexit 1\n")
        self.program("apt-get", f"#!/bin/sh\necho \"$*\" >> '{self.folder}/log'\n")
        self.program("sleep", "#!/bin/sh\n")

    def program(self, name: str, text: str) -> str:
        path = self.file(name, text.encode())
        os.chmod(path, 0o755)
        return path

    def run_tool(self, user: int = 0, python: Optional[str] = None, may_install: str = "") -> Said:
        self.program("id", f"#!/bin/sh\necho {user}\n")
        environment = {"PATH": f"{self.folder}:/usr/bin:/bin", "POLCERT_INSTALL": may_install, **({"PYTHON": python} if python else {})}
        done = subprocess.run([self.tool], env=environment, stdout=subprocess.PIPE, stderr=subprocess.PIPE)
        return Said(done.returncode, done.stdout, done.stderr.decode())

    def installs(self) -> str:
        log = self.folder / "log"
        return log.read_text() if log.exists() else ""

    def test_the_one_that_is_named(self) -> None:
        self.assertEqual(self.run_tool(python=sys.executable), (0, f"{sys.executable}\n".encode(), ""))
        self.assertEqual(self.installs(), "")

    def test_one_on_the_path(self) -> None:
        (self.folder / "python3.12").unlink()
        os.symlink(sys.executable, self.folder / "python3.12")
        self.assertEqual(self.run_tool().out, f"{self.folder}/python3.12\n".encode())
        self.assertEqual(self.installs(), "")

    def test_none_that_may_be_installed(self) -> None:
        for options in ({"user": 1000}, {"may_install": "no"}):
            said = self.run_tool(**options)  # type: ignore[arg-type]
            self.assertEqual((said.status, said.out), (2, b""))
            self.assertRegex(said.err, r"(?m)^    sudo apt-get install python3 .*python3-numpy .*python3-scipy$")
        self.assertEqual(self.installs(), "")

    def test_one_that_is_installed(self) -> None:
        self.program("apt-get", f"#!/bin/sh\necho \"$1\" >> '{self.folder}/log'\nln -sf '{sys.executable}' '{self.folder}/python3'\n")
        said = self.run_tool()
        self.assertEqual((said.status, said.out), (0, f"{self.folder}/python3\n".encode()))
        self.assertEqual(self.installs(), "update\ninstall\n")

    def test_one_that_is_installed_at_the_second_try(self) -> None:
        log, installed = self.folder / "log", self.folder / "python3"
        self.program("apt-get", f"#!/bin/sh\n[ $1 = update ] || ! grep -q install '{log}' || ln -sf '{sys.executable}' '{installed}'\n"
                                f"echo $1 >> '{log}'\n[ -L '{installed}' ]\n")
        said = self.run_tool()
        self.assertEqual((said.status, said.out), (0, f"{installed}\n".encode()))
        self.assertEqual(self.installs(), "update\ninstall\n" * 2)

    def test_an_installation_that_fails(self) -> None:
        self.program("apt-get", "#!/bin/sh\nexit 100\n")
        self.assertEqual((self.run_tool().status, self.run_tool().out), (2, b""))
