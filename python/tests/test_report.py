"""polcert-report."""
import hashlib
import json
import os
import shutil
import unittest

from support import EXAMPLES, PROGRAM, SCRIPTS, TOP, FolderTest, needs_program, polcert, run_file, run_script

TIGER = [str(EXAMPLES / name) for name in ("tiger.POMDP", "tiger.pg", "tiger.alpha")]
LOWERED = [*TIGER[:2], str(EXAMPLES / "tiger.lowered.alpha")]


@needs_program
class Report(FolderTest):
    """The report of a certificate."""

    def report(self, *names: str) -> str:
        """A report of files, whose exit status is that of their check."""
        said = run_script("polcert-report", *names, "--program", PROGRAM)
        self.assertEqual((said.status, said.err), (polcert("check", *names).status, ""))
        return said.out.decode()

    def test_the_same_files_give_the_same_bytes(self) -> None:
        self.assertEqual(self.report(*TIGER), self.report(*TIGER))

    def test_files_verdicts_and_interval(self) -> None:
        report = self.report(*TIGER)
        for name in TIGER:
            with open(name, "rb") as file:
                self.assertIn(f"| `{name}` | `{hashlib.sha256(file.read()).hexdigest()}` |", report)
        self.assertIn("- lowered by 0.000008: yes: start node 0, at least 19.37136\n", report)
        self.assertIn("- raised by 0.000009: yes: every start node, at most 19.371377\n", report)
        self.assertIn("| 0 | listen | 19.37136 | 19.371377 |\n", report)

    def test_the_exit_status(self) -> None:
        for names, status in ((TIGER, 1), (LOWERED, 0)):
            self.assertEqual(run_script("polcert-report", *names, "--program", PROGRAM).status, status)

    def test_terms_of_a_no(self) -> None:
        # 0.85 * (-1 + 0.95 * 28.4028) + 0.15 * (-1 + 0.95 * 19.371368), which is 0.00000006 below 24.695681
        report = self.report(*TIGER)
        self.assertIn("In node 1 and state tiger-left the action is listen. The vector's value is 24.695681, and it has to be at most", report)
        self.assertIn("the sum of these terms, 24.69568094; it is 0.00000006 off.", report)
        self.assertIn("| tiger-left | tiger-left | 0.85 | -1 | 3 | 28.4028 | 22.085261 |", report)
        self.assertIn("| tiger-left | tiger-right | 0.15 | -1 | 0 | 19.371368 | 2.61041994 |", report)

    def test_a_cost_is_a_loss(self) -> None:
        model = self.file("toll.POMDP", b"discount: 0.5 values: cost states: 1 actions: 1 observations: 1 T: 0 identity O: 0 uniform R: 0:0:0:0 1")
        report = self.report(model, self.file("toll.pg", b"0 0 0"), self.file("toll.alpha", b"0 2"))
        self.assertIn("- `polcert check`: no: node 0, state 0, short by 2\n", report)
        self.assertIn("| 0 | 0 | 1 | -1 | 0 | 2 | 0 |", report)
        self.assertIn("| 0 | 0 | -2 | 2 |\n", report)

    def test_nodes_are_rounded_to_the_safe_side(self) -> None:
        # state 0 earns a millionth each step, which is two, and state 1 nothing: lowered by 0 and raised by 1, the means are 0.5 and 1.5 millionths
        text = b"discount: 0.5 values: reward states: 2 actions: 1 observations: 1 T: 0 identity O: 0 uniform R: 0 : 0 : * : * 0.000001"
        names = self.file("m", text), self.file("pg", b"0 0 0"), self.file("alpha", b"0 0.000001 0")
        self.assertIn("| 0 | 0 | 0 | 0.000002 |\n", self.report(*names))
        nodes = json.loads(run_script("polcert-report", *names, "--json", "--program", PROGRAM).out)["nodes"]
        self.assertEqual(nodes, [{"node": 0, "action": "0", "at_least": "0", "at_most": "0.000002"}])

    def test_no_constant_helps(self) -> None:
        model = self.file("lack.POMDP", b"discount: 0.5 values: reward states: 1 actions: 1 observations: 2 T: 0 identity O: 0 uniform")
        report = self.report(model, self.file("lack.pg", b"0 0 0 -"), self.file("lack.alpha", b"0 0"))
        self.assertIn("no: node 0, state 0, observation 1 has no successor", report)
        self.assertIn("No constant makes the vectors pass from both sides", report)

    def test_a_bound_on_every_policy(self) -> None:
        # a program that answers as polcert_bound does stands beside polcert
        os.symlink(PROGRAM, self.folder / "polcert")
        bound = self.file("bound", b"0\n90 90\n1\n0 93\n2\n93 0\n")
        for script, status, expected in (
            (f"cmp $2 '{TIGER[0]}' && cmp $3 '{bound}' && echo 'yes: every policy, at most 90'", 0, "yes: every policy, at most 90"),
            ("echo 'no: action 0, state 0, exceeded by 1'; exit 1", 1, "no: action 0, state 0, exceeded by 1"),
            ("echo 'vectors: V6 at byte 4' >&2; exit 2", 2, "polcert_bound check: vectors: V6 at byte 4"),
            ("exit 1", 2, "polcert_bound check: ended with status 1 and no answer"),
        ):
            version = "[ $1 = --version ] && echo polcert_bound 1 && exit"
            program = self.file("polcert_bound", f"#!/bin/sh\n{version}\n{script}\n".encode())
            os.chmod(program, 0o755)
            said = run_script("polcert-report", *LOWERED, "--program", str(self.folder / "polcert"), "--bound", bound)
            self.assertEqual(said.status, status, said.err)
            self.assertIn(expected, said.err if status == 2 else said.out.decode())
            self.assertEqual(b"\n## Every policy\n" in said.out, status < 2)
            self.assertEqual(f"| `{bound}` | `".encode() in said.out, status < 2)
            self.assertEqual(b"\nChecked by polcert_bound 1 (SHA-256 `" in said.out, status < 2)

    def test_refused_files(self) -> None:
        for at in range(3):
            names = list(TIGER)
            names[at] = self.file("wrong", b"nan")
            said = run_script("polcert-report", *names, "--program", PROGRAM)
            self.assertEqual((said.status, said.out), (2, b""))
            self.assertIn("wrong:1:1", said.err)

    def test_no_program(self) -> None:
        said = run_script("polcert-report", *TIGER, "--program", str(self.folder / "none"))
        self.assertEqual((said.status, said.out), (3, b""))
        self.assertIn("No such file", said.err)


@needs_program
class Forgeries(FolderTest):
    """What a report says of files and programs whose names or bytes mislead."""

    def program(self, text: str) -> str:
        """A program that does something before it runs polcert."""
        name = self.file("program", f'#!/bin/sh\n{text}\nexec \'{PROGRAM}\' "$@"\n'.encode())
        os.chmod(name, 0o755)
        return name

    def test_names(self) -> None:
        forged = "| `x` |\nyes: start node 0, at least 99\n\\"
        with open(TIGER[0], "rb") as file:
            model = os.fsencode(self.folder / "m") + forged.encode() + b"\xff"
            with open(model, "wb") as copy:
                copy.write(file.read())
        said = run_script("polcert-report", os.fsdecode(model), *TIGER[1:], "--program", PROGRAM)
        self.assertEqual((said.status, said.err), (1, ""))
        cell = "m\\x7c \\x60x\\x60 \\x7c\\nyes: start node 0, at least 99\\n\\x5c\\xff"
        self.assertEqual(said.out.decode().splitlines()[4].split(" | ")[0], f"| `{self.folder}/{cell}`")
        self.assertNotIn(b"\nyes", said.out)

    def test_files_that_change(self) -> None:
        model = self.file("model", b"")
        self.program(f"cat '{TIGER[1]}' > '{model}'")
        with open(TIGER[0], "rb") as file, open(model, "wb") as copy:
            copy.write(file.read())
        said = run_script("polcert-report", model, *TIGER[1:], "--program", str(self.folder / "program"))
        expected = run_script("polcert-report", *TIGER, "--program", PROGRAM)
        self.assertEqual((said.status, said.err), (1, ""))
        unlike = [(one, two) for one, two in zip(said.out.splitlines(), expected.out.splitlines()) if one != two]
        self.assertEqual([one.split()[0] for one, _ in unlike], [b"|", b"Checked"])

    def test_a_model_that_can_be_read_once(self) -> None:
        with open(TIGER[0], "rb") as file:
            text = file.read()
        said = run_script("polcert-report", "/dev/stdin", *TIGER[1:], "--program", PROGRAM, given=text)
        self.assertEqual((said.status, said.err), (1, ""))
        self.assertIn(f"| `/dev/stdin` | `{hashlib.sha256(text).hexdigest()}` |\n".encode(), said.out)

    def test_a_program_that_changes(self) -> None:
        name = self.program("echo '#' >> \"$0\"")
        said = run_script("polcert-report", *TIGER, "--program", name)
        self.assertEqual((said.status, said.err), (2, f"polcert-report: {name}: the program changed while the report was written\n"))

    def test_a_program_that_is_killed(self) -> None:
        name = self.program("kill -9 $$")
        said = run_script("polcert-report", *TIGER, "--program", name)
        self.assertEqual((said.status, said.err), (2, f"polcert-report: {name} check: ended with status -9 and no answer\n"))

    def test_a_program_that_does_not_say_its_version(self) -> None:
        name = self.program("case $1 in --version) echo polcert 1.0.0; exit 1;; esac")
        said = run_script("polcert-report", *TIGER, "--program", name)
        self.assertEqual((said.status, said.out, said.err), (2, b"", f"polcert-report: {name} --version: ended with status 1\n"))

    def test_a_proof_is_told_from_the_bytes(self) -> None:
        shared = self.folder / "polcert"
        for folder in (SCRIPTS, TOP / "python"):
            shutil.copytree(folder, shared / folder.name, ignore=shutil.ignore_patterns("tests", "__pycache__"))
        program = shutil.copy(PROGRAM, self.folder / "polcert-unproved")
        with open(program, "rb") as file:
            found = hashlib.sha256(file.read()).hexdigest()
        for record, proof in (
            (None, "of which no proof is recorded here: write the report again with a proved one."),
            (f"sources {found}\nprogram {'0' * 64}\n", "of which no proof is recorded here: write the report again with a proved one."),
            (f"sources {'0' * 64}\nprogram {found}\n", "proved."),
        ):
            if record:
                (shared / "proved").write_text(record)
            said = run_file(shared / "scripts" / "polcert-report", *TIGER, "--program", program)
            self.assertRegex(said.out.decode(), rf"\nChecked by polcert \S+ \(SHA-256 `{found}`\), {proof}\n")


if __name__ == "__main__":
    unittest.main()
