"""What a test asserts: something that could fail.

Of a test in Rattle or Rust one `assert!`, `assert_eq!` or `assert_ne!` at least, none of them of constants alone, of one
text on both sides or of a constant beside `||`, none behind a `return` that each run comes to, and none where an `if` asks a
constant. Of a test in Python, or of functions of its file that it calls, one assertion of unittest, one `assert` or one
`raise`; and no assertion anywhere whose compared terms are constants, or one expression twice. Its class is a `TestCase`, since
nothing runs it otherwise.
"""

import ast
import re

ASSERT = re.compile(r"\bassert(?P<kind>|_eq|_ne)!\(")
# Words of Rust that stand in a term without making it more than a constant.
CONSTANT_WORDS = {"true", "false", "None", "Some", "Ok", "Err", "as"}
TEXT = re.compile(r'"(?:\\.|[^"\\])*"|\'(?:\\.|[^\\\'])\'')
# What says of a test in Rattle or Rust that it isn't run, or that it passes where it fails.
UNLIKE = re.compile(r"#!?\[\s*(?:ignore|should_panic|cfg_attr|cfg\s*\(\s*(?:any\s*\(\s*\)|not\s*\(\s*test))\b[^\]]*")
ON_A_CONSTANT = re.compile(r"\b(?:if|while)\s+(?:true|false)\b")
LEAVES = re.compile(r"[{}()\[\]]|\breturn\b")
# Assertions of unittest by how many of their terms they compare; those not named here compare two.
OF_ONE = ("assertTrue", "assertFalse", "assertIsNone", "assertIsNotNone")
SKIPS = ("skip", "skipIf", "skipUnless", "skipTest", "SkipTest", "expectedFailure")
OF_CALLS = ("assertRaises", "assertRaisesRegex", "assertWarns", "assertWarnsRegex", "assertLogs", "assertNoLogs")


def terms(body, at):
    """The terms of an assertion of Rust whose arguments begin at a place, without what runs it (`rt;`)."""
    found, depth, begin, quoted = [], 0, at, [it.span() for it in TEXT.finditer(body)]
    while at < len(body):
        inside = next((end for start, end in quoted if start == at), None)
        if inside:
            at = inside
            continue
        it = body[at]
        if it in "([{":
            depth += 1
        elif it in ")]}" and depth == 0:
            break
        elif it in ")]}":
            depth -= 1
        elif it in ",;" and depth == 0:
            found += [body[begin:at]] if it == "," else []
            begin = at + 1
        at += 1
    return [" ".join(it.split()) for it in [*found, body[begin:at]] if it.strip()]


def is_constant(term):
    words = re.findall(r"[^\W\d]\w*", TEXT.sub(" ", term))
    return not set(words) - CONSTANT_WORDS


def faults_of_tests(tests):
    """What is wrong with tests in Rattle and Rust: each a name, a place and the text of its body."""
    for name, place, body in tests:
        asserted = [(it["kind"], terms(body, it.end())) for it in ASSERT.finditer(body)]
        if not asserted:
            yield f"{place}: {name} asserts nothing"
        for kind, said in asserted:
            compared = said[: 2 if kind else 1]
            sides = [it.strip() for it in re.split(r"==|!=|<=|>=", compared[0])] if not kind else compared
            either = [] if kind else TEXT.sub('""', compared[0]).split("||")
            is_idle_here = all(map(is_constant, compared)) or len(either) > 1 and any(map(is_constant, either))
            if is_idle_here or len(sides) == 2 and sides[0] == sides[1]:
                yield f"{place}: {name} asserts what can't fail: {', '.join(compared)}"
        if asserted and any(left_at(body) < it.start() for it in ASSERT.finditer(body)):
            yield f"{place}: {name} returns before all is asserted"
        for it in ON_A_CONSTANT.findall(TEXT.sub('""', body)):
            yield f"{place}: {name} asks a constant: {it}"


def left_at(body):
    """The place of a `return` to which each run of a test comes, or the end."""
    depth, bare = 0, TEXT.sub(lambda it: " " * len(it[0]), body)
    for it in LEAVES.finditer(bare):
        if it[0] == "return" and depth == 1:
            return it.start()
        depth += {"{": 1, "(": 1, "[": 1, "return": 0}.get(it[0], -1)
    return len(body)


def faults_of_python(path, text):
    """What is wrong with the tests of a file in Python."""
    tree = ast.parse(text)
    functions = [it for it in ast.walk(tree) if isinstance(it, (ast.FunctionDef, ast.AsyncFunctionDef))]
    asserting, before = {it.name for it in functions if any(map(is_assertion, ast.walk(it)))}, None
    while before != asserting:
        before = {*asserting}
        asserting |= {it.name for it in functions if any(called(of) in before for of in ast.walk(it))}
    for it in functions:
        if it.name.startswith("test") and it.name not in asserting:
            yield f"{path}:{it.lineno}: {it.name} asserts nothing"
    for it in ast.walk(tree):
        if is_assertion(it) and cannot_fail(it):
            yield f"{path}:{it.lineno}: what is asserted can't fail: {ast.get_source_segment(text, it)}"


def bases_of(text):
    """The classes of a file in Python, each with the names of what it is made from."""
    return {it.name: [getattr(of, "id", None) or getattr(of, "attr", None) for of in it.bases]
            for it in ast.walk(ast.parse(text)) if isinstance(it, ast.ClassDef)}


def faults_of_loading(path, text, bases):
    """Tests of a file in Python that nothing runs; `bases` has the classes of all files."""
    bases = {**bases, **bases_of(text)}

    def is_test_case(name):
        return name == "TestCase" or any(it != name and is_test_case(it) for it in bases.get(name, ()))

    for it in ast.walk(ast.parse(text)):
        holds = it.body if isinstance(it, (ast.ClassDef, ast.Module)) else ()
        tests = [of.name for of in holds if isinstance(of, ast.FunctionDef) and of.name.startswith("test")]
        if isinstance(it, ast.ClassDef) and tests and not is_test_case(it.name):
            yield f"{path}:{it.lineno}: nothing runs {tests[0]}, since {it.name} is no TestCase"
        elif isinstance(it, ast.Module) and tests:
            yield f"{path}: nothing runs {tests[0]}, since it is of no TestCase"


def skips_of(text):
    """Where a file in Python may leave out tests, or takes a failing one for well: the line, and the words that say so."""
    tree = ast.parse(text)
    calls = [it for it in ast.walk(tree) if isinstance(it, ast.Call)]
    bare = {id(it): it for it in ast.walk(tree) if isinstance(it, (ast.Name, ast.Attribute))}
    for it in calls:
        bare.pop(id(it.func), None)
    for it in [*calls, *bare.values()]:
        named = called(it) if isinstance(it, ast.Call) else getattr(it, "id", None) or getattr(it, "attr", None)
        if named in SKIPS:
            yield it.lineno, " ".join(ast.get_source_segment(text, it).split())
    yield from ((it.lineno, it.name) for it in tree.body if isinstance(it, ast.FunctionDef) and it.name == "load_tests")


def called(node):
    """The name of what is called there, or None."""
    of = node.func if isinstance(node, ast.Call) else None
    return getattr(of, "id", None) or getattr(of, "attr", None)


def is_assertion(node):
    name = called(node)
    return isinstance(node, (ast.Assert, ast.Raise)) or bool(name) and name.startswith(("assert", "fail"))


def cannot_fail(node):
    if isinstance(node, ast.Assert):
        return is_idle([node.test])
    if not isinstance(node, ast.Call) or called(node) in OF_CALLS or not called(node).startswith("assert"):
        return False
    given = [*node.args, *(it.value for it in node.keywords if it.arg != "msg")]
    return is_idle(given[: 1 if called(node) in OF_ONE else 2])


def is_idle(compared):
    """Whether these terms are constants, or one expression twice, or one that compares such terms."""
    if len(compared) == 1 and isinstance(compared[0], ast.Compare):
        compared = [compared[0].left, *compared[0].comparators]
    if all(map(is_fixed, compared)) or any(isinstance(it, ast.BoolOp) and any(map(is_fixed, it.values)) for it in compared):
        return True
    return len(compared) == 2 and ast.dump(compared[0]) == ast.dump(compared[1])


def is_fixed(term):
    return not any(isinstance(it, (ast.Name, ast.Call, ast.Attribute, ast.Await)) for it in ast.walk(term))
