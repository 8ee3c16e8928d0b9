"""Takes a model to certificates: what a controller earns, proved from below and from above, and how near that is to the best.

    polcert-certify M.POMDP -o DIR           solves the model
    polcert-certify M.POMDP POLICY -o DIR    certifies a policy: a graph (.pg), or what else polcert-graph takes

A model in POMDPX is converted first, as by polcert-convert, and one whose rows sum to one only nearly is mended, as by polcert-mend; then all
is about the model that this makes. DIR gets the model, the graph with its vectors, lowered and raised so that polcert says yes to them, a
bound on every policy, and a report, each named for the model. The proved programs answer; what is computed here only has to pass. With
--near polcert_robust answers for every model whose probabilities lie so near, and for a mended model, if it is there, for the model as it
was written too.

Standard error has a line for each step, with its seconds. Standard output has what is certified, or with --json the report as JSON. The
exit status is 0 if a lower bound is certified, and 1 if there is none. An interrupt (Ctrl-C) ends the search early.
"""
import argparse
import os
import shutil
from typing import Dict, List, Optional

from polcert import programs
from polcert.arguments import add_costs, add_search_limits, exact_number_from_0
from polcert.certification import Certifier, Step, Uncertified
from polcert.certification_report import certificate_json, markdown_of
from polcert.command import Parser, Refusal, read_source, refuse_overwriting, refuse_unwritable_folder, say, show, write_files
from polcert.controllers import BoundTexts, Search, bound_for, given_controller, left_after, read_controller, solved_controller
from polcert.costs import sign_advice
from polcert.distances import nearness
from polcert.files import Model
from polcert.mending import DEFAULT_WITHIN
from polcert.needs import needs_numpy
from polcert.points import WholeCells
from polcert.policies import GraphOrVectors
from polcert.recorded_programs import Program
from polcert.signals import Interrupt
from polcert.stopping import LEAST_SECONDS, spent_seconds
from polcert.tokens import Source
from polcert.values import refuse_discount_of_1
from polcert.watch import Watch

# The worst of all models near is searched for at most this part of the time.
NEAR_PART = 0.25
ENDINGS = ("POMDP", "pg", "alpha", "lowered.alpha", "raised.alpha", "bound.alpha", "bound.points", "near.alpha", "written.alpha", "report.md",
           "report.json")


class Work:
    """The steps of a run."""

    def __init__(self, words: argparse.Namespace) -> None:
        self.words, self.given = words, [read_source(name) for name in (words.model, words.policy) if name is not None]
        self.is_quiet, self.interrupt = words.quiet, Interrupt()
        self.certifier = Certifier(stem(words.model), words.within, words.programs, self.report)
        self.programs: List[Program] = []
        self.robust: Optional[Program] = None

    def report(self, step: Step) -> None:
        if not self.is_quiet:
            say(f"{step.seconds:6.1f} s  {step.name}: {step.line}")

    def run(self) -> bool:
        """Whether a lower bound is certified."""
        if self.words.near is not None:
            programs.found(self.certifier.polcert_robust)  # (before anything takes long)
        model = self.certifier.read_model(self.given[0])
        refuse_discount_of_1(model)
        # what they are before they answer, so that none changes unseen
        self.programs = [Program(programs.found(name)) for name in (self.certifier.polcert, self.certifier.polcert_bound)]
        self.robust = Program(self.certifier.polcert_robust) if shutil.which(self.certifier.polcert_robust) else None
        try:
            bound = self.certify_controller(WholeCells(model))
        except Uncertified as fault:
            self.certifier.lacks("no lower bound", fault)
            return False
        try:
            self.certifier.certify_bound(model.source.text, bound.vectors, bound.points)
        except Uncertified as fault:
            self.certifier.lacks("no bound on every policy", fault)
        if self.words.near is not None:
            self.certifier.certify_near(self.words.near, model, self.watch())
        self.certifier.certify_written(model, self.watch())
        return True

    def watch(self) -> Watch:
        """Ends the search for the worst of all models near after a part of the time."""
        return Watch(self.is_quiet, can_end_early=False, seconds=max(LEAST_SECONDS, NEAR_PART * self.words.seconds))

    def certify_controller(self, cells: WholeCells) -> BoundTexts:
        """Certifies the controller, and returns a bound on every policy."""
        words, model = self.words, cells.model
        search = Search(words.seconds, words.gap / 100, lambda: self.interrupt.is_there, words.quiet)
        if words.policy is None:
            controller, bound = solved_controller(cells, search)
            self.certifier.done("solve", controller.line)
            self.certifier.certify(model, controller)
        else:
            begin = spent_seconds()
            controller = given_controller(self.read_policy(self.given[1], model), model, search)
            search = left_after(search, spent_seconds() - begin)
            self.certifier.done("graph", controller.line)
            self.certifier.certify(model, controller)
            bound = bound_for(cells, search)
            self.certifier.done("search", bound.line)
        if self.interrupt.is_there:
            self.certifier.done("interrupt", "the search was ended early")
        return bound

    def read_policy(self, source: Source, model: Model) -> GraphOrVectors:
        """Reads POLICY, and says a line of advice if its numbers seem to have the wrong sign."""
        found = read_controller(source, model, self.words.costs)
        advice = sign_advice(source, found, model, self.words.costs)
        if advice:
            say(f"polcert-certify: {advice}")
        return found

    def texts(self) -> Dict[str, bytes]:
        """The files of the certificate and its reports, by their names."""
        given: Dict[str, bytes] = {source.name: source.text for source in self.given}
        found = self.certifier.found
        is_near = any(near is not None and near.low is not None for near in (found.near, found.written))
        answered = [program.about() for program in [*self.programs, *([self.robust] if self.robust and is_near else [])]]
        texts = dict(found.files)
        texts[f"{found.name}.report.md"] = markdown_of(found, given, answered).encode()
        texts[f"{found.name}.report.json"] = certificate_json(found, given, answered).encode()
        return texts


def stem(name: str) -> str:
    """The name of a model's file without folders and endings, for the names of the other files."""
    base = os.path.basename(name)
    for ending in (".gz", ".POMDP", ".pomdpx", ".pomdp", ".mdp", ".MDP"):
        base = base[: -len(ending)] if base.endswith(ending) else base
    return base if base not in ("", "-") else "model"


def arguments() -> argparse.Namespace:
    parser = Parser("polcert-certify", __doc__)
    parser.add_argument("model", metavar="MODEL", help="a model (.POMDP or .pomdpx) with a discount below 1")
    parser.add_argument("policy", metavar="POLICY", nargs="?", help="a policy to certify; without one the model is solved")
    parser.add_argument("-o", "--output", metavar="DIR", required=True, help="write the files into this folder, which is made if it is missing")
    add_costs(parser, "POLICY")
    add_search_limits(parser, seconds=30.0)
    most = "the most that mending may move a probability; default 0.00001"
    parser.add_argument("--within", metavar="X", type=exact_number_from_0, default=DEFAULT_WITHIN, help=most)
    parser.add_argument("--near", metavar="X", type=nearness, help="certify every model whose probabilities lie so near: 0.01, or 5%% of themselves")
    parser.add_argument("--json", action="store_true", help="write the report as JSON to standard output")
    parser.add_argument("--programs", metavar="DIR", default="", help="the folder of polcert, polcert_bound and polcert_robust; default: the path")
    parser.add_argument("-q", "--quiet", action="store_true", help="no lines of progress")
    words = parser.parse_args()
    if words.costs and words.policy is None:
        parser.error("--costs goes with POLICY")
    return words


def main() -> int:
    words = arguments()
    names = [os.path.join(words.output, f"{stem(words.model)}.{ending}") for ending in ENDINGS]
    refuse_overwriting([name for name in (words.model, words.policy) if name is not None], names)
    refuse_unwritable_folder(words.output, names)
    with needs_numpy():
        import numpy  # noqa: F401
        import scipy  # noqa: F401
    try:
        work = Work(words)
        is_certified = work.run()
        texts = work.texts()
    except programs.ProgramError as fault:
        raise Refusal(str(fault)) from None
    os.makedirs(words.output, exist_ok=True)
    written = {os.path.join(words.output, name): text for name, text in texts.items()}
    write_files(written)
    for name in names:
        if name not in written and os.path.exists(name):
            say(f"polcert-certify: {name} is left from an earlier run")
    found = work.certifier.found
    for missing in found.missing:
        say(f"polcert-certify: {missing}")
    line = f"{found.name}{' (mended)' if found.is_mended else ''}: {'; '.join(found.sentences()) or 'nothing is certified'}\n"
    show(texts[f"{found.name}.report.json"].decode() if words.json else line)
    return 0 if is_certified else 1
