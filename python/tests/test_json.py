"""--json of the commands, and its schema: a validator of the parts of JSON Schema that the schema uses, and each command against it."""
import json
import os
import re
import subprocess
import sys
import unittest
from hashlib import sha256
from typing import Any, Callable, Dict, Iterator

from support import EXAMPLES, PROGRAM, SCRIPTS, TOP, FolderTest, needs_numpy, needs_program, run_script
from polcert.version import VERSION
from runner import programs_beside
from test_convert import ROCK

SCHEMA: Dict[str, Any] = json.loads((TOP / "docs" / "output.schema.json").read_text())
TIGER, PG, ALPHA = (str(EXAMPLES / f"tiger.{ending}") for ending in ("POMDP", "pg", "alpha"))
ROUGH = b"discount: 0.9 values: reward states: 3 actions: 1 observations: 1\nT: 0 : * 0.333333 0.333333 0.333333\nO: * uniform\n"
TYPES: Dict[str, Callable[[Any], bool]] = {
    "object": lambda value: isinstance(value, dict), "array": lambda value: isinstance(value, list), "string": lambda value: isinstance(value, str),
    "integer": lambda value: isinstance(value, int) and not isinstance(value, bool), "boolean": lambda value: isinstance(value, bool),
    "number": lambda value: isinstance(value, (int, float)) and not isinstance(value, bool), "null": lambda value: value is None,
}
KNOWN = {"$ref", "$schema", "title", "description", "definitions", "type", "required", "properties", "additionalProperties", "items", "pattern",
         "const", "minimum", "oneOf"}


def faults(value: Any, schema: Dict[str, Any], place: str = "") -> Iterator[str]:
    """Where a value is not as a schema of draft 7 says, of whose words it has those of KNOWN."""
    if "$ref" in schema:
        name = schema["$ref"].rpartition("/")[2]
        yield from faults(value, SCHEMA["definitions"][name], place)
        return
    types = schema.get("type", list(TYPES))
    if not any(TYPES[kind](value) for kind in ([types] if isinstance(types, str) else types)):
        yield f"{place}: {value!r} is no {types}"
    if "const" in schema and value != schema["const"]:
        yield f"{place}: {value!r}"
    if isinstance(value, str) and not re.search(schema.get("pattern", ""), value):
        yield f"{place}: {value!r}"
    if isinstance(value, (int, float)) and value < schema.get("minimum", value):
        yield f"{place}: {value!r}"
    if "oneOf" in schema and sum(not any(faults(value, one)) for one in schema["oneOf"]) != 1:
        yield f"{place}: {value!r} is not one of these"
    if isinstance(value, list):
        for i, item in enumerate(value):
            yield from faults(item, schema.get("items", {}), f"{place}/{i}")
    if isinstance(value, dict):
        properties = schema.get("properties", {})
        yield from (f"{place}: no {name}" for name in schema.get("required", []) if name not in value)
        yield from (f"{place}: {name}" for name in value if name not in properties and schema.get("additionalProperties") is False)
        for name, item in value.items():
            yield from faults(item, properties.get(name, {}), f"{place}/{name}")


def schemas(schema: Any) -> Iterator[Dict[str, Any]]:
    """All schemas inside of one."""
    yield schema
    parts = [*schema.get("properties", {}).values(), *schema.get("definitions", {}).values(), *schema.get("oneOf", [])]
    for part in [*parts, *([schema["items"]] if "items" in schema else [])]:
        yield from schemas(part)


class Schema(unittest.TestCase):
    def test_its_words(self) -> None:
        for schema in schemas(SCHEMA):
            self.assertLessEqual(set(schema), KNOWN)
            self.assertLessEqual(set(schema.get("required", [])), set(schema.get("properties", schema.get("required", []))))
            if "$ref" in schema:
                self.assertIn(schema["$ref"], [f"#/definitions/{name}" for name in SCHEMA["definitions"]])

    def test_each_command_with_the_option_is_there(self) -> None:
        names = [path.name for path in SCRIPTS.glob("polcert-*") if b"--json" in run_script(path.name, "--help").out]
        kinds = [SCHEMA["definitions"][one["$ref"].rpartition("/")[2]]["properties"]["command"]["const"] for one in SCHEMA["oneOf"]]
        self.assertEqual(sorted(names), sorted(kinds))

    def test_what_is_not_as_it_says(self) -> None:
        right = {"polcert": "1.0.0", "command": "polcert-points", "files": ["a", "b"], "points": 2, "every_policy": {"at_most": "-0.5"},
                 "uncertified_lower_bound": 1.5}
        self.assertEqual(list(faults(right, SCHEMA)), [])
        for name, value in (("polcert", 1), ("polcert", "new"), ("command", "polcert-solve"), ("files", [1]), ("points", -1), ("points", True),
                            ("every_policy", {"at_most": 0.5}), ("every_policy", {"at_most": "0.1234567"}), ("every_policy", {}), ("more", 1)):
            self.assertNotEqual(list(faults({**right, name: value}, SCHEMA)), [], (name, value))
        self.assertNotEqual(list(faults({name: value for name, value in right.items() if name != "files"}, SCHEMA)), [])


class JsonTest(FolderTest):
    def result(self, *words: str, status: int = 0, given: bytes = b"") -> Dict[str, Any]:
        """What a command prints, which is as the schema says."""
        said = run_script(*words, "--json", given=given)
        self.assertEqual(said.status, status, said.err)
        found: Dict[str, Any] = json.loads(said.out)
        self.assertEqual(list(faults(found, SCHEMA)), [])
        self.assertEqual((found["command"], found["polcert"]), (words[0], VERSION))
        return found


class Results(JsonTest):
    def test_the_mender(self) -> None:
        name, out = self.file("m.POMDP", ROUGH), str(self.folder / "out")
        found = self.result("polcert-mend", name, "-o", out)
        self.assertEqual((found["read"], found["file"], found["rows"], found["numbers"], found["starts"], found["resets"]), (name, out, 3, 0, 0, 0))
        self.assertEqual(found["changes"], [{"line": 2, "change": "T: * : * summed to 0.999999: became `uniform`"}])
        self.assertEqual(found["bound"], "no value moves by more than 0")
        rounded = {"probabilities": "0.000000834", "rewards": "0"}
        self.assertEqual(found["within"], {"written": {"probabilities": "0", "rewards": "0"}, "rounded": rounded})
        self.assertIn(b"T: * : * uniform", (self.folder / "out").read_bytes())

    def test_the_converter(self) -> None:
        found = self.result("polcert-convert", self.file("rock.pomdpx", ROCK.encode()), "-o", str(self.folder / "out"))
        self.assertEqual((found["states"], found["actions"], found["observations"]), (6, 4, 6))

    def test_a_text_and_json_on_one_stream(self) -> None:
        for words in (["polcert-mend", TIGER], ["polcert-convert", TIGER, "-o", "/dev/stdout"]):
            said = run_script(*words, "--json")
            self.assertEqual((said.status, said.out), (2, b""))
            self.assertIn("name a file for the text with -o", said.err)

    def test_the_locator(self) -> None:
        name = self.file("m.POMDP", b"horizon: 5\n")
        found = self.result("polcert-locate", name, given=b"model: M3 in item 0 at byte 0\nanother line\n")
        refusal = found["refusals"][0]
        self.assertEqual((refusal["file"], refusal["line"], refusal["column"], refusal["code"]), (name, 1, 1, "M3"))
        self.assertIn("no horizon", refusal["mend"])
        self.assertEqual((len(refusal["notes"]), found["other_lines"]), (1, ["another line"]))
        self.assertEqual(self.result("polcert-locate", name, given=b"x\n", status=1)["refusals"], [])
        self.assertIsNone(self.result("polcert-locate", name, "model: M20")["refusals"][0]["line"])

    @needs_numpy
    def test_solvers(self) -> None:
        out = str(self.folder / "out")
        found = self.result("polcert-solve", TIGER, "-q", "-o", out, "--seconds", "30")
        self.assertEqual(found["files"], [f"{out}.{ending}" for ending in ("pg", "alpha", "bound.alpha", "bound.points")])
        self.assertAlmostEqual(float(found["worth"]), 19.3713, delta=0.001)
        self.assertAlmostEqual(float(found["every_policy"]["at_most"]), 19.3713, delta=0.001)
        found = self.result("polcert-points", TIGER, "-q", "-o", out, "--seconds", "30")
        self.assertAlmostEqual(float(found["every_policy"]["at_most"]), 19.3713, delta=0.001)
        self.assertAlmostEqual(found["uncertified_lower_bound"], 19.3713, delta=0.001)

    @needs_numpy
    def test_graphs(self) -> None:
        out = str(self.folder / "out")
        found = self.result("polcert-graph", TIGER, ALPHA, "-q", "-o", out)
        self.assertEqual((found["nodes"], found["files"]), (5, [f"{out}.pg", f"{out}.alpha"]))
        self.assertEqual((found["worth"], found["claim"]), (19.371368, 19.371368))
        self.assertIsNone(self.result("polcert-graph", TIGER, PG, "-q", "-o", out)["claim"])
        found = self.result("polcert-graph", TIGER, ALPHA, "-q", "-o", out, "--own-vectors")
        self.assertEqual((found["nodes"], found["left_out"], found["worth"]), (5, [], None))


@needs_program
class Reports(JsonTest):
    def test_a_report(self) -> None:
        found = self.result("polcert-report", TIGER, PG, ALPHA, "--program", PROGRAM, status=1)
        self.assertEqual(found["model"], "pomdp: 2 states, 3 actions, 2 observations, discount 0.95, reward")
        lines = [verdict["line"] for verdict in found["verdicts"]]
        self.assertEqual(lines[0], "no: node 1, state 0, short by 0.000001")
        self.assertEqual(found["lowered"], {"line": "lowered by 0.000008", "verdict": "yes: start node 0, at least 19.37136"})
        self.assertEqual(found["controller"], {"start_node": 0, "at_least": "19.37136", "at_most": "19.371377"})
        self.assertEqual((found["width"], found["gap"], found["every_policy"]), ("0.000017", None, None))
        self.assertEqual(found["nodes"][4], {"node": 4, "action": "open-left", "at_least": "-26.597208", "at_most": "-26.597191"})
        sums = []
        for name in (TIGER, PG, ALPHA):
            with open(name, "rb") as file:
                sums.append({"name": name, "sha256": sha256(file.read()).hexdigest(), "decompressed": False})
        self.assertEqual(found["files"], sums)
        self.assertRegex(found["programs"][0], r"\Apolcert \S+ \(SHA-256 `[0-9a-f]{64}`\), ")

    def test_every_policy(self) -> None:
        os.symlink(PROGRAM, self.folder / "polcert")
        script = "case $1 in --version) echo polcert_bound 1;; *) echo 'yes: every policy, at most 20.5';; esac"
        os.chmod(self.file("polcert_bound", f"#!/bin/sh\n{script}\n".encode()), 0o755)
        words = ["polcert-report", TIGER, PG, str(EXAMPLES / "tiger.lowered.alpha"), "--program", str(self.folder / "polcert"), "--bound", ALPHA]
        found = self.result(*words)
        self.assertEqual(found["every_policy"], {"line": "yes: every policy, at most 20.5", "at_most": "20.5"})
        self.assertEqual((found["gap"], len(found["files"]), len(found["programs"])), ("1.12864", 4, 2))

    def test_bounds_that_have_no_gap(self) -> None:
        """With discount 1 vectors of 5 for nothing pass, since none of them fades; with 0.5 a bound below what is earned is none."""
        os.symlink(PROGRAM, self.folder / "polcert")
        script = "case $1 in --version) echo polcert_bound 1;; *) echo 'yes: every policy, at most 1';; esac"
        os.chmod(self.file("polcert_bound", f"#!/bin/sh\n{script}\n".encode()), 0o755)
        text = "values: reward states: 1 actions: 1 observations: 1 T: 0 identity O: 0 uniform"
        graph, vectors = self.file("m.pg", b"0 0 0"), self.file("m.alpha", b"0 5")
        words = [graph, vectors, "--program", str(self.folder / "polcert"), "--bound", ALPHA]
        found = self.result("polcert-report", self.file("m.POMDP", f"discount: 1 {text}".encode()), *words)
        self.assertEqual(found["controller"], {"start_node": 0, "at_least": "5", "at_most": "5"})
        self.assertEqual((found["width"], found["gap"], found["every_policy"]["at_most"]), ("0", None, "1"))
        said = run_script("polcert-report", self.file("m.POMDP", f"discount: 0.5 {text} R: * : * : * : * 2.5".encode()), *words, "--json")
        self.assertEqual((said.status, said.out), (2, b""))
        self.assertIn("polcert-report: the programs contradict each other: at least 5 and at most 1; ", said.err)

    @needs_numpy
    def test_an_mdp(self) -> None:
        """A step earns 1 if its action has the state's number, which stays: one node is worth 2 in one of both states alone."""
        folder = self.folder / "programs"
        folder.mkdir()
        for name, program in programs_beside(str(PROGRAM)).items():
            os.symlink(os.path.realpath(program), folder / name)
        model = self.file("m.mdp", b"discount: 0.5 values: reward states: 2 actions: 2 T: * identity R: 0 : 0 : * 1 R: 1 : 1 : * 1\n")
        found = self.result("polcert-certify", model, "-q", "-o", str(self.folder / "out"), "--programs", str(folder))
        self.assertEqual(found["controller"], {"start_node": 0, "at_least": "1.5", "at_most": "1.5", "at_least_where_the_start_is_seen": "2"})

    @needs_numpy
    def test_a_mended_model(self) -> None:
        folder = self.folder / "programs"
        folder.mkdir()
        for name, program in programs_beside(str(PROGRAM)).items():
            os.symlink(os.path.realpath(program), folder / name)
        model = self.file("m.POMDP", b"discount: 0.9 values: reward states: 2 actions: 1 observations: 1 T: 0 0.9 0.1001 0 1 O: * uniform\n")
        found = self.result("polcert-certify", model, "-q", "-o", str(self.folder / "out"), "--within", "0.001", "--programs", str(folder))
        self.assertEqual(found["written"], {"at_least": "0", "start_node": 0, "within": "0.000041", "rewards_within": "0"})

    @needs_numpy
    def test_the_gate_of_a_release(self) -> None:
        """examples/release.mk, in a folder with the model and the graph."""
        folder = self.folder / "programs"
        folder.mkdir()
        for name, program in programs_beside(str(PROGRAM)).items():
            os.symlink(os.path.realpath(program), folder / name)
        for name, program in (("polcert-certify", f'"{SCRIPTS / "polcert-certify"}"'), ("python3", "")):
            (folder / name).write_text(f'#!/bin/sh\nexec "{sys.executable}" {program} "$@"\n')
            os.chmod(folder / name, 0o755)
        self.assertEqual(len((EXAMPLES / "release.mk").read_text().splitlines()), 10)
        environment = {**os.environ, "PATH": f"{folder}:{os.environ['PATH']}"}
        for least, is_right in (("19.37", True), ("19.3714", False)):
            words = ["make", "-s", "-f", str(EXAMPLES / "release.mk"), f"LEAST={least}", f"MODEL={TIGER}", f"POLICY={PG}"]
            done = subprocess.run(words, cwd=self.folder, env=environment, stdout=subprocess.PIPE, stderr=subprocess.STDOUT)
            self.assertEqual(done.returncode == 0, is_right, done.stdout)
            found = json.loads((self.folder / "release" / "certificate.json").read_text())
            self.assertEqual(list(faults(found, SCHEMA)), [])
            self.assertEqual(found["controller"]["at_least"], "19.37136")
