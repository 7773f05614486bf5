#!/usr/bin/env python3
"""Sees that the tests are those of tests/names.txt, and that each asserts something that could fail.

    names.py

The list has each `#[test]` of the crates and of rust/, each test of python/tests, each check of tests/ that has a name, each
word on what isn't tried, each skip of python/tests, each stored run, each part of the gate and each fault that it plants; of examples in documentation
how many a file has. One that is new or gone fails; `./test --accept NAME..` takes it. assertions.py says what a test has to assert.
The last line is `N passed, M failed`, a name each.
"""

import ast
import glob
import json
import os
import re
import sys

from assertions import UNLIKE, bases_of, faults_of_loading, faults_of_python, faults_of_tests, skips_of
from clauses import Source, after_brackets
from crates import TOP, Crates
from lists import Found, Listed, judged

HEAD = "Each test by its name, and of examples how many there are: docs/GATE.md."
TEST = re.compile(r"#\[test\]\s*(?:#\[[^\]]*\]\s*)*(?:pub )?fn (\w+)")
# How a shell script makes a check, and what a call of Python that makes one is named.
CHECK = re.compile(r"""^\s*(?:wants|holds|judge) (?:"((?:\\.|[^"\\])*)"|'([^']*)')""", re.M)
# How one says that it leaves something out for want of what the machine lacks.
NOT_TRIED = re.compile(r"""^[^#\n]*\becho "((?:not tried|\w+\.sh: left out): (?:\\.|[^"\\])*)\"""", re.M)
CALLS = ("wants", "holds", "Part", "Fault", "Tried")
RUNS = ("runs", "worked", "matrix", "lists")


def texts(*patterns):
    """The files of the repository that meet these patterns, each with its text."""
    for pattern in patterns:
        for path in sorted(glob.glob(os.path.join(TOP, pattern), recursive=True)):
            with open(path, encoding="utf-8") as file:
                yield os.path.relpath(path, TOP), file.read()


def line_of(text, at):
    return text.count("\n", 0, at) + 1


def crate_tests():
    """The `#[test]` functions of crates: name, file and line, and the text of the body."""
    for crate in Crates().values():
        for path in crate.text_files():
            if path.endswith(".rt"):
                with open(path, encoding="utf-8") as file:
                    source = Source(crate, path, file.read(), None)
                for name, line, body in tests_in(source.plain, source.bare):
                    yield f"{source.module}::{name}", f"{os.path.relpath(path, TOP)}:{line}", body


def tests_in(plain, bare):
    for it in TEST.finditer(bare):
        begin = bare.index("{", it.end())
        yield it[1], line_of(bare, it.start()), plain[begin : after_brackets(bare, begin)]


def rust_tests():
    """The tests of the Rust crate: name, file and line, and the text of the body."""
    for path, text in texts("rust/fowlyore/src/**/*.rs", "rust/fowlyore/tests/**/*.rs"):
        for name, line, body in tests_in(text, text):
            yield f"{path}: {name}", f"{path}:{line}", body


def examples():
    for path, text in texts("rust/fowlyore/src/**/*.rs"):
        yield path, len(re.findall(r"^\s*//[/!] ```", text, re.M)) // 2
    for path, text in texts("python/fowlyore/**/*.py"):
        yield path, len(re.findall(r"^\s*>>> ", text, re.M))


def checks():
    """The checks that have names, in scripts of the shell and of Python, and the stored runs."""
    for path, text in texts("tests/*.sh"):
        for it in CHECK.finditer(text):
            yield f"{path}: {it[1] or it[2]}", f"{path}:{line_of(text, it.start())}"
        for it in NOT_TRIED.finditer(text):
            yield f"{path}: {it[1].strip()}", f"{path}:{line_of(text, it.start())}"
    for path, text in texts("tests/**/*.py", "gate/gate.py", "gate/faults.py", "gate/store_faults.py"):
        for it in ast.walk(ast.parse(text)):
            name = it.func if isinstance(it, ast.Call) else None
            if getattr(name, "id", getattr(name, "attr", "")) in CALLS and it.args:
                said = it.args[0].value if isinstance(it.args[0], ast.Constant) else ast.get_source_segment(text, it.args[0])
                yield f"{path}: {' '.join(str(said).split())}", f"{path}:{it.lineno}"
    stored = json.loads(dict(texts("tests/runs.json"))["tests/runs.json"])
    for kind in RUNS:
        for it in stored[kind]:
            yield f"tests/runs.json: {kind}: {it['name']}", "tests/runs.json"


def python_tests():
    for path, text in texts("python/tests/**/*.py"):
        for of in ast.parse(text).body:
            for it in of.body if isinstance(of, ast.ClassDef) else [of]:
                if isinstance(it, (ast.FunctionDef, ast.AsyncFunctionDef)) and it.name.startswith("test"):
                    name = f"{of.name}.{it.name}" if it is not of else it.name
                    yield f"{path}: {name}", f"{path}:{it.lineno}"
        for line, said in skips_of(text):
            yield f"{path}: {said}", f"{path}:{line}"


def names():
    """The list of tests, beside those of the tree."""
    found = {}
    pairs = [*((name, place) for name, place, _ in [*crate_tests(), *rust_tests()]), *python_tests(), *checks()]
    for name, place in pairs:
        whole, at = name, 2
        while whole in found:
            whole, at = f"{name}~{at}", at + 1
        found[whole] = Found("", place)
    for path, count in examples():
        if count:
            found[f"{path}: examples"] = Found(str(count), path)
    return Listed("tests/names.txt", HEAD, found, lambda name: re.split(r"::|: ", name)[0])


def faults():
    """Tests in the crates, in rust/ and in python/tests that assert what can't fail, or that nothing runs."""
    yield from faults_of_tests([*crate_tests(), *rust_tests()])
    for path, text in texts("crates/*/src/**/*.rt", "rust/fowlyore/src/**/*.rs", "rust/fowlyore/tests/**/*.rs"):
        for it in UNLIKE.finditer(text):
            yield f"{path}:{line_of(text, it.start())}: a test that nothing runs, or one that passes where it fails: {it[0]}]"
    bases = {}
    for _, text in texts("python/tests/**/*.py"):
        bases.update(bases_of(text))
    for path, text in texts("python/tests/**/*.py"):
        yield from faults_of_python(path, text)
        yield from faults_of_loading(path, text, bases)


if __name__ == "__main__":
    sys.exit(judged(names(), faults()))
