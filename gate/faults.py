#!/usr/bin/env python3
"""Plants faults one by one in copies of the tree, and sees that the gate fails at each, with a store that holds
all that is proved.

    faults.py [texts | proofs]      those that a part finds by reading texts, or those by proofs; or all
    faults.py --fit                 plants none: sees that the text that each replaces stands once in its file

A gate that takes from a store is worth as much as its sums: a crate whose text changed must never be taken. So a
body, a contract, a definition, a proof, a line of crates.txt, a test and an answer are made wrong here, and so are the
edits; store_faults.py has those of the store. A copy has the crates of the fault and those below, so their sums are those of the
tree. The last line is `N passed, M failed`, a fault each, and each copy without its fault, but for --fit.
"""

import importlib
import itertools
import os
import re
import shutil
import subprocess
import sys
import tempfile

from crates import TOP, Crates
from store import default_folder

CLOSING = re.compile(r"^(?:[a-z]+: )?\d+ passed, (\d+) failed$", re.M)


class Fault:
    """A fault: a name, the crate whose closure the copy has (None: all crates), the words of the part that has to
    fail, a file, a text that stands in it once, and what stands there then. No text stands for the whole file, which
    is deleted where nothing stands there then."""

    def __init__(self, name, crate, words, path, old, new):
        self.name, self.crate, self.words, self.path, self.old, self.new = name, crate, words, path, old, new

    def misfit(self, room):
        """Why it can't be planted there, or None. No text to replace stands for a file that may be there or not."""
        if not self.old and self.new is not None:
            return None
        if not os.path.isfile(os.path.join(room, self.path)):
            return f"{self.path} is no file"
        count = self.text(room).count(self.old) if self.old else 1
        return None if count == 1 else f"{self.path} has {count} times, and not once: {self.old}"

    def text(self, room):
        with open(os.path.join(room, self.path), encoding="utf-8") as file:
            return file.read()

    def plant(self, room):
        path = os.path.join(room, self.path)
        if self.new is None:
            os.remove(path)
            return
        text = self.text(room).replace(self.old, self.new) if self.old else self.new
        with open(path, "w", encoding="utf-8") as file:
            file.write(text)


OF_TEXTS, OF_PROOFS, FIT = "texts", "proofs", "--fit"
PROVE, WRONG, HELD, NAMES = ["gate/prove.py"], ["gate/wrong.py"], ["gate/held.py"], ["gate/names.py"]
ASKED, LENT, CONSTANTS, FITS = ["gate/asked.py"], ["gate/lent.py"], ["gate/constants.py"], [*WRONG, "--texts"]
MUTANTS, FIGURES = ["gate/mutants.py", "--listed"], ["bench/figures.py", "--check"]
LAYOUT = ["gate/layout.py"]
FILES, VERSIONS = ["tools/files.py", "--check"], ["gate/versions.py"]
PACK = [*PROVE, "--program", "reqs_c"]
PROGRAM = os.path.join("crates", "reqs_cli", "out", "reqs_cli")
DOCUMENTED = ["tests/documented.py", os.path.join(TOP, PROGRAM)]
SIZES = ["tests/sizes.py", "reqs", "packages"]
# The parts that prove nothing, and leave nothing in the tree.
TEXTS = (LAYOUT, HELD, MUTANTS, NAMES, ASKED, LENT, CONSTANTS, FITS, FIGURES, FILES, VERSIONS, DOCUMENTED, SIZES)
PYTHON_TESTS = "python/tests/test_specifiers.py"
SPECIFIERS = "crates/reqs_c_versions/specs/Specifiers.antt"
UNNOTICED = "reqs_c_versions.Specifiers.AreTaken: drop field is_list ="
LOW = "crates/underline"
LAST_USE = "use unicode_width::UnicodeWidthChar;\n"
# A launcher by which `same` is without memory where a list has more than five lines.
GIVES_UP = """if [ "$1" = same ] && [ "$(wc -l <"$2")" -gt 5 ]; then
    echo "reqs: out of memory" >&2
    exit 3
fi
exec -a reqs "$program" "$@"
"""
FAILING = "a_letter_takes_two_columns"
FAILING_TEST = f"""
#[cfg(test)]
mod tests {{
    use std::test::Fail;

    #[test]
    fn {FAILING}(rt: HostRuntime) -> Result<(), Fail> {{
        assert_eq!(rt; crate::columns("a"), 2);
        Ok(())
    }}
}}
"""
FAULTS = [
    Fault("a body", "underline", PROVE, f"{LOW}/src/lib.rt", "c.width().unwrap_or(0)", "c.width().unwrap_or(1)"),
    Fault("a body, two crates below the one that is left out", "pep508_error", PROVE,
          f"{LOW}/src/lib.rt", "let mut total = 0;", "let mut total = 1;"),
    Fault("a contract", "underline", PROVE,
          f"{LOW}/src/lib.rt", "result ≡ columns text.now", "result ≡ 1 + columns text.now"),
    Fault("a definition", "underline", PROVE,
          f"{LOW}/specs/Underline.antt", "(char_width false c) 0", "(char_width true c) 0"),
    Fault("a proof", "pep440_operator", PROVE,
          "crates/pep440_operator/proofs/Operators.antt", "", "-- nothing is proved here\n"),
    Fault("a line of crates.txt", "underline", PROVE, "crates.txt", "underline: unicode_width", "underline:"),
    Fault("a test that fails", "underline", PROVE, f"{LOW}/src/lib.rt", LAST_USE, LAST_USE + FAILING_TEST),
    Fault("an answer to a question", "questions", PROVE, "crates/questions/stdout", "", "none\n"),
    Fault("an edit that is right", None, [*WRONG, "--gate", "underline"],
          "tests/wrong/underline/marks_are_the_blanks.edit", "",
          "file: src/lib.rt\nold: c.width().unwrap_or(0)\nnew: match c.width() { Some(it) => it, None => 0 }\n"),
    Fault("an edit that is right, of a crate that changed", None, [*WRONG, "--gate", "underline"],
          "tests/wrong/underline/dashes_for_blanks.edit", "",
          "file: src/lib.rt\nold: c.width().unwrap_or(0)\nnew: match c.width() { Some(it) => it, None => 0 }\n"),
    Fault("a definition by the code's own table", None, CONSTANTS,
          "crates/reqs_io_faults/specs/Inputs.antt", "use Rattle.reqs_io.specs.Front.",
          "use Rattle.reqs_io.specs.declared.TheConstants.{INPUT_LIMIT}\nuse Rattle.reqs_io.specs.Front."),
    Fault("lemmas in a file that is named as a function's own proof", None, LAYOUT, "crates/reqtable_normal/proofs/Lib.antt",
          "pub mod SameAnswers\n", "pub mod SameAnswers\npub mod Answers\n"),
    Fault("a clause by the code's own number", None, CONSTANTS, f"{LOW}/src/lib.rt",
          "    ensures { result ≡ columns text.now }\n", "    ensures { result ≤ MOST_COLUMNS }\n"),
    Fault("a definition without one of its fields", None, HELD, SPECIFIERS,
          "  pub is_list : IsListIn bytes members\n  pub is_text : text ≡ map", "  pub is_text : text ≡ map"),
    Fault("a definition with another's name", None, HELD, SPECIFIERS,
          "Rattle.reqs_c_versions.specs.Versions.{version_in}", "Rattle.pep508_environment.specs.EnvironmentValues.{version_in}"),
    Fault("a definition whose words stand in a comment", None, HELD, f"{LOW}/specs/Underline.antt",
          "columns text = sum_by char_columns (chars text)\n",
          "columns text--it = zero {-\n  = sum_by char_columns (chars text)\n  -- -}\n"),
    Fault("a clause whose words stand in a comment", None, HELD, "crates/pep508_name/src/laws.rt",
          "    ensures { (a b : List ℕ) → IsTrue (name_eq a b) ↔ (a ≡ b) }\n",
          "    ensures {\n        (a b//it : List ℕ) → Unit {0} {-\n        : List ℕ) → IsTrue (name_eq a b) ↔ (a ≡ b) // -}\n    }\n"),
    Fault("a clause that is read as a body", None, HELD, "crates/reqs_command/src/words.rt",
          "    requires { F.IsAlwaysCallable fill }\n{\n    let mut size = FIRST_SIZE;",
          f"    requires {{ F.IsAlwaysCallable fill }}\n    requires {'n' * 120} {{ 1 ≡ 2 }}\n    ensures {{ 1 ≡ 1 }}\n{{\n"
          "    let mut size = FIRST_SIZE;"),
    Fault("functions that may wait without end", None, HELD, "HANDLES", "none", "Wait"),
    Fault("definitions that are passed on under each other's names", None, HELD, "crates/pep508_rs/specs/Lib.antt",
          "evaluation.specs.Edges as WarnedEdges\npub use Rattle.pep508_view.specs.Edges as ShownEdges\n",
          "evaluation.specs.Edges as ShownEdges\npub use Rattle.pep508_view.specs.Edges as WarnedEdges\n"),
    Fault("a definition whose mutants weren't tried as it stands", None, MUTANTS, SPECIFIERS,
          "  pub is_list : IsListIn bytes members\n  pub is_text : text ≡ map", "  pub is_text : text ≡ map"),
    Fault("a mutant that nothing notices, for no reason", None, MUTANTS,
          "tests/unnoticed.txt", "docs/GATE.md.\n", f"docs/GATE.md.\n\n{UNNOTICED}\n"),
    Fault("a proved caller that says nothing", None, HELD, "crates/reqtable_list_tests/src/twice.rt",
          "\n    ensures { IfOk result (λ tests. tests\n", "\n    ensures { IfOk result (λ tests. tests ≡ tests) }\n    requires { IfOk result (λ tests. tests\n"),
    Fault("a proved caller that isn't held, since it is a private type's", None, HELD, "crates/reqtable_list_tests/src/twice.rt",
          "fn two_trees(", "struct Pair;\n\nimpl Pair {\n    fn count() -> u32\n        ensures { result ≡ result }\n    {\n        2\n    }\n}\n\nfn two_trees("),
    Fault("a contract without one of its clauses", None, HELD, "crates/pep440_version/src/version.rt",
          "        ensures grown { result ≡ Err errors.Memory → version_reading text.now ≢ Err NoLeadingNumber }\n", ""),
    Fault("a claim of README.md that says more", None, HELD, "README.md",
          "Every function is proved safe (", "Every function and the toolchain are proved safe ("),
    Fault("a promise that is weaker", None, HELD, "docs/PROMISES.md", "extras and candidate text of the written grammars, `check`",
          "extras and candidate text of the written grammars that is short, `check`"),
    Fault("another figure in README.md", None, FIGURES, "README.md", "\nOn slow cores (", "\nOn slow cores (1"),
    Fault("a figure in README.md that nobody measured", None, FIGURES,
          "README.md", "`./try` runs the program unproved", "`./try`, 30 times as fast as `./reqs`, runs the program unproved"),
    Fault("a figure that README.md doesn't state", None, FIGURES, "bench/figures.json",
          '  "sentences": [\n', '  "sentences": [\n    {"page": "README.md", "said": "it takes {building.answer} here"},\n'),
    Fault("a figure of a command that is none", None, FIGURES, "bench/figures.json", "bench/building.py answer", "bench/answer.py"),
    Fault("a limit in README.md that the code doesn't have", None, FIGURES, "bench/figures.json",
          "An input has 16,777,216 bytes", "An input has 16,777,217 bytes"),
    Fault("another first answer in README.md", None, DOCUMENTED, "README.md", "    numpy none\n", "    numpy 2.0\n"),
    Fault("another answer in a document", None, DOCUMENTED, "docs/COMMANDS.md", "    numpy 2,7\n", "    numpy 2\n"),
    Fault("a test that is none", None, NAMES, "crates/pep508_url_tests/src/urls.rt",
          "#[test]\nfn keeps_variables(", "fn keeps_variables("),
    Fault("a file of tests that is deleted", None, NAMES, PYTHON_TESTS, "", None),
    Fault("an assertion that can't fail", None, NAMES, PYTHON_TESTS,
          "self.assertEqual(list(SpecifierSet(text).filter(VERSIONS, prereleases=True)), taken.split(), text)", "self.assertTrue(True)"),
    Fault("a test that passes where it fails", None, NAMES, "crates/pep508_url_tests/src/urls.rt",
          "#[test]\nfn keeps_variables(", "#[test]\n#[should_panic]\nfn keeps_variables("),
    Fault("a test that returns before it asserts", None, NAMES, "crates/pep508_url_tests/src/urls.rt",
          "    let vars = variables(rt.alloc())?;\n    assert_eq!(rt; vars.project_root()",
          "    let vars = variables(rt.alloc())?;\n    return Ok(());\n    assert_eq!(rt; vars.project_root()"),
    Fault("an assertion beside what is true", None, NAMES, "crates/pep508_url_tests/src/urls.rt",
          "assert!(rt; Scheme::File.is_file() && ", "assert!(rt; true || Scheme::File.is_file() && "),
    Fault("tests of a class that nothing runs", None, NAMES, PYTHON_TESTS, "class Taking(unittest.TestCase)", "class Taking(object)"),
    Fault("a test that is skipped", None, NAMES, PYTHON_TESTS,
          "sys.version_info < (3, 10), \"match is", "sys.version_info < (4, 10), \"match is"),
    Fault("a lent call that is passed on", None, LENT,
          "crates/pep508_rs/src/lib.rt", "{Interner, MarkerTree}", "{Interner, MarkerTree, uncounted_conjunction}"),
    Fault("a matrix that keeps a copy of its requirements", None, LENT,
          "crates/reqs_answers/src/matrices.rt",
          "let table = table_of(alloc, requirements, interner, request.limit, request.bounds)?;",
          "let copy = copied_packages(alloc, &requirements, &[])?; "
          "let table = table_of(alloc, copy, interner, request.limit, request.bounds)?;"),
    Fault("a lent module under another name", None, LENT,
          "crates/reqtable_conflicts/src/contradicting.rt", "use reqtable_table::{Case, Table, TableError};",
          "use reqtable_table::{self as tables, Case, Table, TableError};\nuse tables::lent::places;"),
    Fault("a lent module that is passed on under another name", None, LENT,
          "crates/reqs_rows/src/answering.rt", "use reqtable_table::lent::places;",
          "use reqtable_table::lent as given;\nuse given::places;\npub use given::*;"),
    Fault("a list of files that lacks one", None, FILES, "docs/FILES.md", "- `gate/floors.py`: ", "- `gate/floor.py`: "),
    Fault("a crate of another version", None, VERSIONS, "rust/fowlyore/Cargo.toml", '\nversion = "', '\nversion = "1'),
    Fault("packages that lack a call", None, VERSIONS, "include/reqs.h", "\nreqs_reply reqs_covers(", "\nreqs_reply reqs_uncovers("),
    Fault("packages that lack a name", None, VERSIONS, "python/fowlyore/__init__.py", '    "Covering",\n', '    "Covering",\n    "Uncovering",\n'),
    Fault("a library for C that isn't packed", "reqs_c", PACK, "tools/pack.sh", "set -eu\n", "exit 1\n"),
    Fault("an edit in place of another, that stands there already", None, ASKED,
          "tests/wrong/pep440_operator/less_becomes_greater.edit", "",
          "file: src/operator.rt\nold:             Operator::LessThanEqual => write!(f, \"<=\"),\n"
          "new:             Operator::LessThanEqual => write!(f, \"<\"),\n"),
    Fault("a control of the right text in brackets", None, ASKED, "tests/wrong/pep440_operator/not_equal_has_no_star.edit",
          "control:         matches!(self, Operator::NotEqualStar | Operator::EqualStar)",
          "control:         { matches!(self, Operator::EqualStar | Operator::NotEqualStar) }"),
    Fault("no edits", None, FITS, "tests/wrong/gate.txt", "", ""),
    Fault("an edit of gate.txt that is deleted", None, FITS, "tests/wrong/underline/marks_are_the_blanks.edit", "", None),
    Fault("what isn't tried and isn't told", None, NAMES, "tests/python.sh", 'echo "not tried: the types', 'true "not tried: the types'),
    Fault("a program that gives up at more than five packages", None, SIZES, "reqs", 'exec -a reqs "$program" "$@"\n', GIVES_UP),
]


def copy_of(crate, room):
    """Copies the tree without what lies in out/: of its crates all, or those of a closure."""
    crates = Crates()
    kept = {it.name for it in [*crates.below(crate), crates[crate]]} if crate else {*crates}
    words = ["git", "ls-files", "-z", "--cached", "--others", "--exclude-standard"]
    listed = subprocess.run(words, cwd=TOP, capture_output=True, check=True).stdout.decode()
    for path in filter(None, listed.split("\0")):
        folders = path.split("/")
        if os.path.isfile(os.path.join(TOP, path)) and (folders[0] != "crates" or folders[1] in kept):
            os.makedirs(os.path.join(room, os.path.dirname(path)), exist_ok=True)
            shutil.copy2(os.path.join(TOP, path), os.path.join(room, path))
    with open(os.path.join(room, "crates.txt"), "w", encoding="utf-8") as file:
        file.writelines(crates.lines[it] for it in crates if it in kept)


def ran(words, room, store):
    """The status of a part of the gate in a copy, and what it said."""
    how = {"stdin": subprocess.DEVNULL, "stdout": subprocess.PIPE, "stderr": subprocess.STDOUT, "errors": "replace"}
    done = subprocess.run([sys.executable, *words], cwd=room, env={**os.environ, "FOWLYORE_CACHE": store}, **how)
    return done.returncode, done.stdout


def judged(fault, is_planted, room):
    """Why the gate isn't as it has to be in a copy with this fault planted, or without it, or None."""
    misfit = fault.misfit(room) if is_planted else None
    if misfit:
        return f"it can't be planted: {misfit}"
    if is_planted:
        fault.plant(room)
    status, said = ran(fault.words, room, default_folder())
    failed = [int(it) for it in CLOSING.findall(said)]
    is_told = fault.words == PACK or failed and failed[-1]
    if is_planted and (status == 0 or not is_told):
        return f"the gate did not fail: status {status}: {said[-300:]}"
    if not is_planted and (status or fault.words == PROVE and "gate: 0 proved, " not in said):
        return f"without the fault the gate did not pass from the store: status {status}: {said[-300:]}"
    return None


def judged_by_texts(faults):
    """Why the gate isn't as it has to be at each fault that one part finds by reading texts: all are planted in one copy in turn."""
    with tempfile.TemporaryDirectory(prefix="reqs-faults-") as room:
        copy_of(None, room)
        if faults[0].words == SIZES:
            # (which the launcher runs)
            os.makedirs(os.path.join(room, os.path.dirname(PROGRAM)))
            shutil.copy2(os.path.join(TOP, PROGRAM), os.path.join(room, PROGRAM))
        yield f"the copy for {faults[0].name}", judged(faults[0], False, room)
        for it in faults:
            yield it.name, judged(it, True, room)
            if os.path.isfile(os.path.join(TOP, it.path)):
                shutil.copy2(os.path.join(TOP, it.path), os.path.join(room, it.path))


def judged_by_proofs(faults):
    """Why the gate isn't as it has to be at each fault by which something is proved: each is planted in a copy of its own."""
    for at, is_planted in [(0, False), *((at, True) for at in range(len(faults)))]:
        with tempfile.TemporaryDirectory(prefix="reqs-faults-") as room:
            copy_of(faults[at].crate, room)
            name = faults[at].name if is_planted else f"the copy for {faults[at].name}"
            yield name, judged(faults[at], is_planted, room)


def told(groups):
    """Each fault's name, and why the gate isn't as it has to be at it, or None; so of each copy without its fault."""
    for faults in groups:
        yield from judged_by_texts(faults) if faults[0].words in TEXTS else judged_by_proofs(faults)


def groups_of(kind):
    """The faults that are tried together: those that are found by reading texts, or by proofs, or all."""
    groups = {}
    for it in FAULTS:
        if kind in (None, OF_TEXTS if it.words in TEXTS else OF_PROOFS):
            groups.setdefault((it.crate, *it.words), []).append(it)
    return groups.values()


def found(kind):
    """What each fault of a kind comes to, and each of the store."""
    of_the_store = () if kind == OF_TEXTS else importlib.import_module("store_faults").told()
    yield from itertools.chain(told(groups_of(kind)), of_the_store)


def main(words):
    if words not in ([], [OF_TEXTS], [OF_PROOFS], [FIT]):
        print(__doc__, file=sys.stderr)
        return 2
    passed, failed = 0, 0
    of_all = ((it.name, it.misfit(TOP)) for it in FAULTS) if words == [FIT] else found(words[0] if words else None)
    for name, why in of_all:
        print(f"FAILED: {name}: {why}" if why else f"{name}: as it has to be", flush=True)
        passed, failed = passed + (why is None), failed + (why is not None)
    print(f"{passed} passed, {failed} failed")
    return 1 if failed else 0


if __name__ == "__main__":
    sys.exit(main(sys.argv[1:]))
