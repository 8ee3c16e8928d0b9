"""The names that the tree declares, of each crate and elsewhere: those that pages may put in backquotes."""
import ast
import pathlib
import re
from collections import defaultdict
from itertools import accumulate
from typing import DefaultDict, Iterator, Set

from runner import TOP, files_below

# Words of the languages and of other tools: Rattle and its prover, Julia and its POMDPs.jl, gzip, AI-Toolbox, R's pomdp, pomdp_py, clap.
OTHERS = frozenset("""kit rattle abbrev const ensures field i64 if-amount-gt0 if-other in_err in_ok let match now record requires
    result rw search unfoldable Drop man hide override_usage POMDP::Policy Float64 AlphaVectorPolicy gunzip AIToolbox
    hpp solve_POMDP write_POMDP to_pomdp_file vi_pruning""".split())
NAME = re.compile(r"[^\W\d][\w']*(?:-[\w']+)*")

VISIBLE = r'(?:pub(?:\([^)]*\))? )?(?:ghost )?'
ITEM = re.compile(rf'^ *{VISIBLE}(?:unsafe )?(?:const )?(?:fn|struct|enum|trait|type|const|static|mod) (\w+)', re.M)
TYPE = re.compile(rf'^( *){VISIBLE}(?:struct|enum|trait) (\w+)[^;\n]*\{{\n(.*?)^\1\}}', re.M | re.S)
METHODS = re.compile(r"^impl(?:<[^{\n]*?>)? (?:[^{\n]* for )?(\w+)[^{]*\{\n(.*?)^\}", re.M | re.S)
MEMBER = re.compile(rf'^ +{VISIBLE}(\w+)(?::(?!:)|,$|\(| \{{| =)', re.M)
CHAIN = re.compile(r"\bc(?:\.[\w'-]+)+")
CLAUSE = re.compile(r'\b(?:requires|ensures|invariant) (\w+) \{')
USED = {'.rt': re.compile(r'(\w+ )?\buse ([^;]+);'), '.antt': re.compile(r'(\w+ )?\buse (.+)')}
OF_OTHERS = re.compile(r'Rattle\.(?!polcert)|(?:mir|std|core|alloc|clap|indexmap|itoa|memchr|thiserror)\b')
DEFINITION = re.compile(r'^ *(?:(?:abbrev|unfoldable|pub) )*(?:(?:record|data) (\S+)|([^\s:(){}]+) :(?!:))', re.M)
LITERAL = re.compile(r'"-{0,2}([\w-]+)"')
STRING = re.compile(r'-{0,2}[\w.-]+')
SHELL = re.compile(r'^ *(?:export )?(\w+)(?:\(\)|=)', re.M)
COMMENTS = {'.rt': re.compile('//.*'), '.antt': re.compile('--.*')}


def in_rt(code: str) -> Iterator[str]:
    """Functions, types with their fields and variants, constants, modules and clauses. A member is declared as `Type::member` too."""
    yield from ITEM.findall(code)
    yield from CLAUSE.findall(code)
    for _, name, body in TYPE.findall(code):
        for member in MEMBER.findall(body) + ITEM.findall(body):
            yield from (member, f'{name}::{member}')
    for name, body in METHODS.findall(code):
        yield from (f'{name}::{method}' for method in ITEM.findall(body))


def in_antt(code: str) -> Iterator[str]:
    """Definitions, laws and lemmas; records and data with their fields and constructors; and chains of names that a proof begins with `c`."""
    yield from (name for names in DEFINITION.findall(code) for name in names if name)
    for chain in CHAIN.findall(code):
        yield from accumulate(chain.split('.'), '{}.{}'.format)


def text_of(node: ast.Constant) -> str:
    return node.value.decode(errors='replace') if isinstance(node.value, bytes) else str(node.value)


def in_python(code: str) -> Iterator[str]:
    """Functions, classes with their fields, and constants; and words and options, which are strings of their own."""
    for node in ast.walk(ast.parse(code)):
        if isinstance(node, (ast.FunctionDef, ast.ClassDef)):
            yield node.name
        if isinstance(node, (ast.Module, ast.ClassDef)):
            targets = [target for line in node.body if isinstance(line, (ast.Assign, ast.AnnAssign)) for target in ast.walk(line)]
            yield from (target.id for target in targets if isinstance(target, ast.Name) and isinstance(target.ctx, ast.Store))
        if isinstance(node, ast.Constant) and STRING.fullmatch(text_of(node)):
            yield text_of(node).lstrip('-')
        if isinstance(node, ast.Attribute) and node.attr == 'split' and isinstance(node.value, ast.Constant):
            yield from text_of(node.value).split()


class Tree:
    """The paths of the tree, the targets of `make`, and the names that are declared: by each crate, by the toolchain, and elsewhere."""

    def __init__(self) -> None:
        self.paths: Set[str] = set()
        self.of_crate: DefaultDict[str, Set[str]] = defaultdict(set)
        self.of_others: Set[str] = set(OTHERS)
        self.elsewhere: Set[str] = set()
        for path in files_below():
            parts = path.relative_to(TOP).parts
            names = self.of_crate[parts[1]] if parts[0] == 'crates' and len(parts) > 1 else self.elsewhere
            for length in range(1, len(parts) + 1):
                self.paths |= {'/'.join(parts[first:length]) for first in range(length)}
                names.update(NAME.findall(parts[length - 1]))
            self.add(path, names)
        self.targets = set(re.findall(r'^(\w+):', (TOP / 'Makefile').read_text(), re.M))
        self.names = self.elsewhere.union(self.of_others, *self.of_crate.values())

    def add(self, path: pathlib.Path, names: Set[str]) -> None:
        """Adds what a file declares."""
        if path.suffix == '.md':
            return
        text = path.read_text(errors='replace')
        if path.suffix in COMMENTS:
            code = COMMENTS[path.suffix].sub('', text)
            names.update(in_rt(code) if path.suffix == '.rt' else in_antt(code))
            names.update(LITERAL.findall(code))
            for how, used in USED[path.suffix].findall(code):
                if OF_OTHERS.match(used):
                    self.of_others.update(NAME.findall(used))
                elif path.suffix == '.rt' and how:  # (a contract cites it, or it is passed on)
                    names.update(NAME.findall(used))
        elif path.suffix == '.py' or text.startswith('#!/usr/bin/env python3'):
            names.update(in_python(text))
        elif text.startswith('#!'):
            names.update(SHELL.findall(text))
