#!/usr/bin/env python3
"""Replays the stored runs of runs.json.

    runs.py PROGRAM

Each run has a folder of its own with the files that it names, and the program is started there. Those of `check`,
`matrix` and `conflicts` are started with `--strict` too. What `check`
answers `matrix` is asked too, for its environment twice; where `same` says yes it is asked with its lists exchanged
too, and `covers` is asked with its lists both ways. A line is printed for each run that differs; the last line is `runs: N passed, M failed`. tests/least.txt says how
many runs there are at least.
"""

import json
import os
import subprocess
import sys
import tempfile

# A program that hasn't ended after so many seconds never does: machines may be slow, and have other work.
HANGS = 600
# The options that a run may name, each with its number or text.
OPTIONS = ("assume", "limit", "cases", "nodes", "clauses")
# The status after `--strict` of an answer that has a row `none` or a conflict.
UNSATISFIED = 4


def to_bytes(text):
    return text.encode("utf-8", "surrogateescape")


def environments_of(run, environment):
    """The text of a run's environments: the one of the file with the members that each tells."""
    if "environment" in run:
        return run["environment"]
    usual = json.loads(environment)
    lists = [{**usual, **told} for told in run["environments"]]
    return json.dumps([{name: it for name, it in one.items() if it is not None} for one in lists])


def ended(program, words, texts):
    """How the program ended on files with these texts: its status and outputs."""
    with tempfile.TemporaryDirectory(prefix="reqs-run-") as folder:
        for name, text in texts.items():
            with open(os.path.join(folder, name), "wb") as file:
                file.write(to_bytes(text))
        how = {"stdin": subprocess.DEVNULL, "capture_output": True, "timeout": HANGS}
        done = subprocess.run([program, *words], cwd=folder, **how)
        return done.returncode, done.stdout, done.stderr


def differences(program, words, texts, wanted):
    try:
        got = ended(program, words, texts)
    except (OSError, subprocess.TimeoutExpired) as error:
        return [str(error)]
    told = zip(("status", "standard output", "standard error"), got, wanted)
    return [f"{what} is {one!r}, not {other!r}" for what, one, other in told if one != other]


def strictly(name, words, texts, wanted):
    """A run with `--strict`: it writes the same, and an answer ends with the status by what it has. A conflict is a line, and a
    row is `none` where its line ends so; the names of packages have no space."""
    status, out, err = wanted
    if status == 0 and (out if words[0] == "conflicts" else b" none\n" in out):
        status = UNSATISFIED
    return f"{name}, strictly", [*words, "--strict"], texts, (status, out, err)


def runs_of(stored):
    """Each run, and those of `check`, `matrix` and `conflicts` with `--strict` too."""
    for run in plain_runs_of(stored):
        yield run
        if run[1][0] in ("check", "matrix", "conflicts"):
            yield strictly(*run)


def plain_runs_of(stored):
    """Each run: its name, its words, the texts of its files, and how it is to end."""
    for run in stored["runs"] + stored["worked"]:
        name, extras = run["name"], run.get("extras", [])
        environment = run.get("environment", stored["environment"])
        texts = {"R": run["requirements"], "E": environment, "C": run["candidates"]}
        wanted = end_of(run)
        yield name, ["check", "R", "E", "C", *extras], texts, wanted
        if run["status"] == 0:
            texts = {**texts, "E": f"[{environment}, {environment}]"}
            twice = b"env 1\n" + wanted[1] + b"env 2\n" + wanted[1]
            yield f"{name}, by matrix", ["matrix", "R", "E", "C", *extras], texts, (0, twice, b"")
    for run in stored["matrix"]:
        environments = environments_of(run, stored["environment"])
        texts = {"R": run["requirements"], "E": environments, "C": run["candidates"]}
        yield run["name"], ["matrix", "R", "E", "C", *options_of(run), *run.get("extras", [])], texts, end_of(run)
    for run in stored["lists"]:
        command, wanted = run["command"], end_of(run)
        name = f"{command}: {run['name']}"
        if command == "covers":
            texts = {"LOCK": run["lock"], "REQS": run["requirements"]}
            yield name, ["covers", "LOCK", "REQS", *options_of(run)], texts, wanted
            continue
        if command != "same":
            yield name, [command, "REQS", *options_of(run)], {"REQS": run["requirements"]}, wanted
            continue
        texts = {"LEFT": run["left"], "RIGHT": run["right"]}
        yield name, ["same", "LEFT", "RIGHT", *options_of(run)], texts, wanted
        if run["status"] == 0:
            yield f"{name}, exchanged", ["same", "RIGHT", "LEFT", *options_of(run)], texts, wanted
            # (lists that require the same cover each other)
            yield f"{name}, covered", ["covers", "LEFT", "RIGHT", *options_of(run)], texts, wanted
            yield f"{name}, covering", ["covers", "RIGHT", "LEFT", *options_of(run)], texts, wanted


def options_of(run):
    return [word for name in OPTIONS if name in run for word in (f"--{name}", str(run[name]))]


def end_of(run):
    return run["status"], to_bytes(run["stdout"]), to_bytes(run["stderr"])


def stored_runs():
    """What runs.json holds."""
    here = os.path.dirname(os.path.abspath(__file__))
    with open(os.path.join(here, "runs.json"), encoding="utf-8") as file:
        return json.load(file)


def tried(program):
    """What each run is, and how it differs."""
    for name, words, texts, wanted in runs_of(stored_runs()):
        yield f"stored run {name}", differences(program, words, texts, wanted)


def command(text, name, tries):
    """Does what a script is asked for whose one word is a program: tries it, and prints what fails. Returns the exit status.

    `text` tells of the script, whose name is `name`; `tries` gives of a program what was tried, and what is wrong with that.
    """
    if len(sys.argv) != 2:
        sys.exit(text)
    passed = failed = 0
    for what, found in tries(os.path.abspath(sys.argv[1])):
        passed += not found
        failed += bool(found)
        if found:
            print(f"FAILED: {what}: {'; '.join(found)}")
    print(f"{name}: {passed} passed, {failed} failed")
    return 1 if failed else 0


if __name__ == "__main__":
    sys.exit(command(__doc__, "runs", tried))
