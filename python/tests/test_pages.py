"""The man pages and the completions, which are made of the commands' words."""
import os
import re
import unittest
from unittest.mock import patch

from support import SCRIPTS, TOP, load_file, run_script

TOOL = load_file("command_pages", TOP / "tools" / "command-pages")


def help_of(name: str) -> str:
    """The help of a command, with no word cut at the end of a line."""
    with patch.dict(os.environ, COLUMNS="10000"):
        return run_script(name, "--help").out.decode()


class Pages(unittest.TestCase):
    def test_the_files_are_those_of_the_tool(self) -> None:
        pages = TOOL.pages()
        for name, text in pages.items():
            self.assertEqual((TOP / name).read_text(encoding="utf-8"), text, f"{name}: run tools/command-pages")
        self.assertEqual(sorted(name for name in pages if name.endswith(".1")), sorted(f"docs/{path.name}.1" for path in SCRIPTS.glob("polcert-*")))

    def test_each_option_of_the_help(self) -> None:
        """Each option that a command prints in its help is in its man page and in both completions."""
        completions = {name: (TOP / name).read_text() for name in (TOOL.BASH, TOOL.ZSH)}
        for path in SCRIPTS.glob("polcert-*"):
            options = re.findall(r"^  (-\w|--[\w-]+)(?:[ ,].*?(--[\w-]+))?(?:\s|$)", help_of(path.name), re.M)
            page = (TOP / f"docs/{path.name}.1").read_text()
            in_bash = re.findall(rf"^    {path.name}\) words='(.*)' ;;$", completions[TOOL.BASH], re.M)
            in_zsh = re.findall(rf"^  {path.name}\) words_of=\((.*?)^  \) ;;$", completions[TOOL.ZSH], re.M | re.S)
            self.assertGreaterEqual(len(options), 2)
            for option in [option for pair in options for option in pair if option]:
                self.assertRegex(page, rf"(?m)^\.It (.*, )?Fl {option[1:]}( |$)")
                self.assertIn(option, in_bash[0].split())
                self.assertIn(f"){option}[", in_zsh[0])

    def test_signs_of_a_page(self) -> None:
        self.assertEqual(TOOL.prose(".pg is `a-b`. It is\na\\b."), "\\&.pg is \\(oqa\\-b\\(cq.\nIt is a\\eb.")
        self.assertEqual(TOOL.prose("'x' is"), "\\&'x' is")
        self.assertEqual(TOOL.literal("    .x -y\n      z"), ".Bd -literal -offset indent\n\\&.x \\-y\n  z\n.Ed")
