#!/usr/bin/env python3
"""Asks every command of numbers at their end, in each place where a text has a number.

    numerals.py PROGRAM

Numbers of versions have 64 bits. Here the greatest of them, the first that is none, and 10^30, each also with zeros before it,
stand as epoch, in releases, behind the words for pre-, post- and developmental releases, in local parts, before stars, behind
`~=`, in markers and their lists, and in environments. The answers are worked out here, by the rules of PEP 440 and PEP 508 and
by these of this project: a number past the end is no number, but for a local part, where it is a text; and what would have to
raise the greatest number is refused by `same` and in a marker, has no conflict, and is answered by all others. The last line
is `numerals: N passed, M failed`; tests/least.txt says how many there are at least.
"""

import json
import sys
from typing import NamedTuple, Optional, Tuple

import runs
from rows import USUAL

MOST, LESS = 2**64 - 1, 2**64 - 2
GREATEST = (f"{MOST}", f"000{MOST}")
PAST = tuple(f"{zeros}{it}" for it in (2**64, 10**30) for zeros in ("", "000"))
AT_END = "a version number can't be raised"
POST = "post-release after a bound"


class Place(NamedTuple):
    """A place in a version: how it is written and printed, and what the version is."""

    written: str
    printed: str
    is_early: bool = False
    is_post: bool = False
    is_dev: bool = False


PLACES = {
    "an epoch": Place("{}!1.0", "{}!1.0"),
    "a release of one number": Place("{}", "{}"),
    "the first number": Place("{}.0", "{}.0"),
    "the last number": Place("1.{}", "1.{}"),
    "a pre-release": Place("1.0a{}", "1.0a{}", is_early=True),
    "a release candidate": Place("1.0-C.{}", "1.0rc{}", is_early=True),
    "a post-release": Place("1.0.post{}", "1.0.post{}", is_post=True),
    "a post-release by a sign": Place("1.0-{}", "1.0.post{}", is_post=True),
    "a developmental release": Place("1.0.dev{}", "1.0.dev{}", is_early=True, is_dev=True),
}
LOCAL = Place("1.0+{}", "1.0+{}")


class Specifier(NamedTuple):
    """A specifier, a version that it refuses and one that it accepts, with `-` for the greatest number but one; whether a number
    has to be raised for its range; else a specifier with which it has no point in common, and if one is a pre-release."""

    text: str
    refused: str
    accepted: str
    raises: bool = False
    other: str = "<0"
    is_early: bool = False


SPECIFIERS = (
    Specifier("=={}.*", "-.9", "{}.3", raises=True),
    Specifier("==1.{}.*", "1.-.9", "1.{}.3", raises=True),
    Specifier("=={}!1.*", "{}!2.0", "{}!1.5"),
    Specifier("!={}.*", "{}.3", "-.9", raises=True),
    Specifier("!=1.{}.*", "1.{}.3", "1.-.9", raises=True),
    Specifier("!={}!1.*", "{}!1.5", "-!1.5", other="=={}!1.5"),
    Specifier("~={}.0", "-.9", "{}.1", raises=True),
    Specifier("~=1.{}.0", "2.0", "1.{}.7", raises=True),
    Specifier("~=1.{}", "1.-", "1.{}.1"),
    Specifier("~={}!1.0", "{}!2.0", "{}!1.5"),
    Specifier("~=1.0a{}", "1.0a-", "1.0a{}", is_early=True),
    Specifier("~=1.0.post{}", "1.0.post-", "1.1"),
    Specifier("~=1.0.dev{}", "1.0.dev-", "1.0.dev{}", is_early=True),
    Specifier(">1.0.dev{}", "1.0.dev{}", "1.0", raises=True),
    Specifier(">1.0a1.dev{}", "1.0a1.dev{}", "1.0a1", raises=True),
)


class Marker(NamedTuple):
    """A comparison, if it holds by CPython 3.11.4, and its normal text, of which none stands for what always or never holds."""

    text: str
    holds: bool
    normal: Optional[str]


def plain(text, holds):
    return Marker(text, holds, text)


FULL, SHORT = "python_full_version", "python_version"
MARKERS = (
    plain(f"{FULL} == '{{}}'", False), plain(f"{FULL} != '{{}}'", True), plain(f"{FULL} < '{{}}'", True),
    plain(f"{FULL} <= '{{}}'", True), plain(f"{FULL} > '{{}}'", False), plain(f"{FULL} >= '{{}}'", False),
    plain(f"{FULL} >= '3.{{}}'", False), plain(f"{FULL} == '3.{{}}'", False), plain(f"{FULL} != '3.11.{{}}'", True),
    plain("implementation_version > '3.11.{}'", False),
    Marker(f"{FULL} < '{{}}.0.0'", True, f"{FULL} < '{{}}'"),
    Marker(f"{FULL} ~= '3.{{}}'", False, f"{FULL} >= '3.{{}}' and {FULL} < '4'"),
    Marker(f"{FULL} >= '{{}}!3.8'", True, f"{FULL} >= '3.8'"), Marker(f"{FULL} >= '3.8a{{}}'", True, f"{FULL} >= '3.8'"),
    Marker(f"{FULL} <= '3.8.post{{}}'", False, f"{FULL} <= '3.8'"), Marker(f"{FULL} > '3.8.dev{{}}'", True, f"{FULL} > '3.8'"),
    Marker(f"{FULL} in '3.{{}} 3.11.4'", True, f"{FULL} == '3.11.4' or {FULL} == '3.{{}}'"),
    Marker(f"{FULL} not in '3.{{}} 3.11.4'", False, f"{FULL} != '3.11.4' and {FULL} != '3.{{}}'"),
    Marker(f"{SHORT} < '3.{{}}'", True, f"{FULL} < '3.{{}}'"), Marker(f"{SHORT} >= '3.{{}}'", False, f"{FULL} >= '3.{{}}'"),
    Marker(f"{SHORT} ~= '3.{{}}'", False, f"{FULL} >= '3.{{}}' and {FULL} < '4'"),
    Marker(f"{SHORT} == '{{}}'", False, f"{FULL} == '{{}}.0.*'"), Marker(f"{SHORT} != '{{}}'", True, f"{FULL} != '{{}}.0.*'"),
    Marker(f"{SHORT} > '{{}}'", False, f"{FULL} >= '{{}}.1'"), Marker(f"{SHORT} <= '{{}}'", True, f"{FULL} < '{{}}.1'"),
    Marker(f"{SHORT} in '{{}}'", False, f"{FULL} == '{{}}.0.*'"),
    Marker(f"{SHORT} == '3.{{}}.1'", False, None), Marker(f"{SHORT} != '3.{{}}.1'", True, None),
    Marker(f"{SHORT} ~= '3.{{}}.1'", False, None), Marker(f"{SHORT} in '3.{{}}.1 3.{{}}'", False, None),
    Marker(f"{SHORT} not in '3.{{}}.1'", False, None),
)  # fmt: skip
# Comparisons of which a number would have to be raised.
RAISING = (
    *(f"{FULL} {it}" for it in ("~= '{}.0'", "~= '3.{}.0'", "== '{}.*'", "!= '3.{}.*'")),
    *(f"{SHORT} {it} '3.{{}}'" for it in ("==", "!=", ">", "<=", "in", "not in")),
    *(f"{SHORT} {it} '3.{{}}.1'" for it in (">", ">=", "<", "<=")),
    f"{SHORT} ~= '3.{{}}.0'", f"{SHORT} in '3.8 3.{{}}'", "'3.{}' < python_version", "implementation_version == '3.{}.*'",
)  # fmt: skip
# Members of environments that are read, each with a comparison and if it then holds.
MEMBERS = (
    (FULL, "{}", f"{FULL} == '{MOST}'", True), (FULL, "3.{}", f"{SHORT} >= '3.{MOST}'", True),
    (FULL, "{}!3.8", f"{FULL} == '3.8'", False), (FULL, "3.8a{}", f"{FULL} < '3.8'", True),
    (FULL, "3.8.post{}", f"{FULL} > '3.8'", True), (FULL, "3.8.dev{}", f"{FULL} >= '3.8'", False),
    (SHORT, "{}", f"{SHORT} == '3.11'", True), ("implementation_version", "{}.1", f"implementation_version > '{MOST}'", True),
)  # fmt: skip


# ---- runs: the words, the texts of files, and the status and both outputs that are wanted


def check(requirements, candidates="", answer="", refused="", members=None, more=""):
    """`check`, and `matrix` for one environment; `more` is put before its members."""
    one = json.dumps({**USUAL, **(members or {})})
    one = "{" + more + one[1:]
    texts, status, said = {"R": requirements, "C": candidates}, 2 if refused else 0, f"reqs: {refused}\n" if refused else ""
    yield ["check", "R", "E", "C"], {**texts, "E": one}, (status, answer, said)
    yield ["matrix", "R", "E", "C"], {**texts, "E": f"[{one}]"}, (status, answer if refused else f"env 1\n{answer}", said)


def same(left, right, differ=False, refused=""):
    """`same`, of one package at most, which differs everywhere or nowhere."""
    said = f"reqs: {refused}\n" if refused else ""
    ended = (2, "", said) if refused else (1, "no\nfoo\nall environments\n", "") if differ else (0, "yes\n", "")
    yield ["same", "LEFT", "RIGHT"], {"LEFT": left, "RIGHT": right}, ended
    # (lists that require the same cover each other, and what one can't compare the other can't)
    if refused or not differ:
        yield ["covers", "LEFT", "RIGHT"], {"LEFT": left, "RIGHT": right}, ended


def alone(command, requirements, answer="", refused=""):
    """`conflicts` or `normal`."""
    yield [command, "R"], {"R": requirements}, (2, "", f"reqs: {refused}\n") if refused else (0, answer, "")


def refused_everywhere(line, fault):
    """A list that each command refuses alike, by a fault of its line; for `same` also as the right one, behind another line."""
    yield from check(line, refused=f"R: line 1{fault}")
    yield from same(line, "", refused=f"LEFT: line 1{fault}")
    yield from same("foo\n", f"foo\n{line}", refused=f"RIGHT: line 2{fault}")
    for command in ("conflicts", "normal"):
        yield from alone(command, line, refused=f"R: line 1{fault}")


def early(is_early):
    return " pre" if is_early else ""


# ---- the greatest number


def versions(place, number):
    """Versions, and specifiers of just one, of which a number is the greatest."""
    given, shown, less = place.written.format(number), place.printed.format(MOST), place.printed.format(LESS)
    yield from check(f"foo=={given}\n", f"foo {given}\n", f"foo {shown}\n")
    yield from check(f"foo==={given}\n", f"foo {less}\nfoo {given}\n", f"foo {shown}\n")
    yield from check(f"foo!={given}\n", f"foo {given}\nfoo {less}\n", f"foo {less}\n")
    yield from check("foo>=0.dev0\n", f"foo {less}\nfoo {given}\nfoo {less}\n", f"foo {shown}\n")
    yield from same(f"foo=={given}\n", f"foo=={shown}\n")
    yield from same(f"foo=={given}\n", f"foo=={less}\n", differ=True)
    yield from same(f"foo!={given}\n", f"foo!={less}\n", differ=True)
    yield from alone("conflicts", f"foo=={given}\nfoo!={shown}\n", f"foo 1,2{early(place.is_early)}\n")
    yield from alone("normal", f"foo == {given}\n", f"foo=={shown}\n")


def bounds(place, number):
    """Specifiers of bounds of which a number is the greatest."""
    given, shown, less = place.written.format(number), place.printed.format(MOST), place.printed.format(LESS)
    for sign, taken in ((">=", shown), ("<=", shown), ("<", less), (">", "none")):
        yield from check(f"foo{sign}{given}\n", f"foo {given}\n" + f"foo {less}\n" * (sign != ">"), f"foo {taken}\n")
        yield from alone("normal", f"foo{sign}{given}\n", f"foo{sign}{shown}\n")
        is_post, is_raised = place.is_post and sign in "<>", place.is_dev and sign == ">"
        refused = f"LEFT: line 1: {POST}" if is_post else f"LEFT: line 1: {AT_END}" if is_raised else ""
        yield from same(f"foo{sign}{given}\n", f"foo{sign}{shown}\n", refused=refused)
        yield from same(f"foo{sign}{given}\n", f"foo{sign}{less}\n", differ=True, refused=refused)
    yield from check(f"foo>{less}\n", f"foo {less}\nfoo {given}\n", f"foo {shown}\n")
    told = "" if place.is_post else f"foo 1,2{early(place.is_early)}\n"
    yield from alone("conflicts", f"foo>={given}\nfoo<{shown}\n", told)
    yield from alone("conflicts", f"foo<={given}\nfoo>{shown}\n", "" if place.is_dev else told)
    if place.is_dev:
        yield from same(f"foo>{less}\n", f"foo>={given}\n")


def specifiers(it, number):
    """Stars, compatible releases, and bounds that are raised."""
    given, shown = it.text.format(number), it.text.format(MOST)
    refused, accepted = (text.replace("-", str(LESS)).format(MOST) for text in (it.refused, it.accepted))
    yield from check(f"foo{given}\n", f"foo {refused}\nfoo {accepted}\n", f"foo {accepted}\n")
    yield from check(f"foo{given}\n", f"foo {refused}\n", "foo none\n")
    yield from same(f"foo{given}\n", f"foo{shown}\n", refused=f"LEFT: line 1: {AT_END}" if it.raises else "")
    yield from same("foo\n", f"foo\n\nfoo{shown}\n", differ=True, refused=f"RIGHT: line 3: {AT_END}" if it.raises else "")
    told = "" if it.raises else f"foo 1,2{early(it.is_early)}\n"
    yield from alone("conflicts", f"foo{given}\nfoo{it.other.format(MOST)}\n", told)
    yield from alone("normal", f"foo {given}\n", f"foo{shown}\n")


def markers(it, number):
    """Comparisons with a version of which a number is the greatest."""
    line, normal = f"foo ; {it.text.format(number, number)}\n", (it.normal or "").format(MOST)
    shown = f"foo ; {normal}\n" if it.normal else "foo\n" * it.holds
    yield from check(line, answer="foo none\n" * it.holds)
    yield from alone("normal", line, shown)
    yield from same(line, shown)
    one, other = line.replace("foo", "foo<1"), line.replace("foo", "foo>1")
    yield from alone("conflicts", one + other, "foo 1,2\n" if shown else "")


def raising(text, number):
    """Comparisons that are refused."""
    yield from refused_everywhere(f"foo ; {text.format(number)}\n", f": {AT_END}")
    yield from refused_everywhere(f"foo ; os_name == 'a' and {text.format(number)}\n", f": {AT_END}")


def environments(number):
    """Environments of which a version has the greatest number."""
    for name, text, marker, holds in MEMBERS:
        yield from check(f"foo ; {marker}\n", answer="foo none\n" * holds, members={name: text.format(number)})
    if number == str(MOST):
        yield from check("foo\n", answer="foo none\n", more=f'"n": [{number}], ')


# ---- numbers past the end


def faults(text, number):
    """Specifiers with a number past the end, which each command refuses."""
    piece = text.format(number)
    found = f'expected number less than or equal to {MOST}, but number found in "{number}" exceeds it'
    place = f", byte 3, length {len(piece)}\n{found}\nfoo{piece}\n   {'^' * len(piece)}"
    yield from refused_everywhere(f"foo{piece}\n", place)


def candidates_past(place, number):
    yield from check("foo\n", f"foo 1\nfoo {place.written.format(number)}\n", refused="C: line 2: version")


def locals_past(number):
    """Local parts, where a number past the end is a text as it is written, below each number."""
    text = LOCAL.written.format(number)
    yield from check(f"foo=={text}\n", f"foo {text}\n", f"foo {text}\n")
    yield from check(f"foo=={text}\n", f"foo 1.0+{MOST}\nfoo {text}0\n", "foo none\n")
    yield from check("foo>=1\n", f"foo {text}\nfoo 1.0+{MOST}\nfoo {text}0\n", f"foo 1.0+{MOST}\n")
    yield from same(f"foo=={text}\n", f"foo=={text}\n")
    yield from same(f"foo=={text}\n", f"foo==1.0+0{number}\n", differ=True)
    yield from alone("conflicts", f"foo=={text}\nfoo!={text}\n", "foo 1,2\n")
    yield from alone("normal", f"foo == {text}\n", f"foo=={text}\n")
    marker = Marker(f"{FULL} == '3.8+{number}'", False, f"{FULL} == '3.8'")
    yield from markers(marker, "")


def markers_past(text, number):
    """Comparisons with what is no version mean nothing."""
    line = f"foo ; {text.format(number, number)}\n"
    yield from check(line, answer="foo none\n")
    yield from alone("normal", line, "foo\n")
    yield from same(line, "foo\n")
    yield from alone("conflicts", line.replace("foo", "foo<1") + line.replace("foo", "foo>1"), "foo 1,2\n")


def environments_past(number):
    """Environments of which a version has a number past the end, and JSON numbers past it."""
    for name, text, _, _ in MEMBERS:
        yield from check("foo\n", refused=f"E: environment 1: member {name} is no version", members={name: text.format(number)})
    told = "not JSON" if number.startswith("0") else "a number is a float"
    yield from check("foo\n", refused=f"E: {told}", more=f'"n": [{number}], ')


def limits(number):
    """Limits past the greatest, in whose place the program's help says what may stand there."""
    for words, texts, _ in (*check("foo\n"), *same("foo\n", "foo\n"), *alone("conflicts", "foo\n")):
        if words[0] != "check":
            yield [*words, "--limit", number], texts, (2, "", None)


def bounded(number):
    """Bounds up to the greatest, which nothing passes."""
    for words, texts, wanted in (*same("foo\n", "foo\n"), *alone("normal", "foo\n", "foo\n")):
        yield [*words, "--nodes", number, "--clauses", number], texts, wanted
    for words, texts, wanted in alone("conflicts", "foo\n"):
        yield [*words, "--nodes", number, "--cases", number], texts, wanted


def bounds_past(number):
    """Bounds past the greatest, in whose place the program's help says what may stand there."""
    for words, texts, _ in (*same("foo\n", "foo\n"), *alone("normal", "foo\n", "foo\n")):
        yield [*words, "--nodes", number], texts, (2, "", None)
        yield [*words, "--clauses", number], texts, (2, "", None)
    for words, texts, _ in alone("conflicts", "foo\n"):
        yield [*words, "--cases", number], texts, (2, "", None)


# ---- all of them


def kinds() -> Tuple:
    """What is asked: a name, and a function that gives its runs."""
    return (
        *((f"{name} of a version", lambda it, place=place: versions(place, it), GREATEST) for name, place in PLACES.items()),
        *((f"{name} of a bound", lambda it, place=place: bounds(place, it), GREATEST) for name, place in PLACES.items()),
        ("a local part", lambda it: versions(LOCAL, it), GREATEST),
        *((f"the specifier {of.text}", lambda it, of=of: specifiers(of, it), GREATEST) for of in SPECIFIERS),
        *((f"the marker {of.text}", lambda it, of=of: markers(of, it), GREATEST) for of in MARKERS),
        *((f"the marker {of}", lambda it, of=of: raising(of, it), GREATEST) for of in RAISING),
        ("environments", environments, GREATEST),
        *((f"{name} of a specifier", lambda it, of=of: faults(f"=={of.written}", it), PAST) for name, of in PLACES.items()),
        *((f"the specifier {of.text}", lambda it, of=of: faults(of.text, it), PAST) for of in SPECIFIERS),
        *((f"{name} of a candidate", lambda it, of=of: candidates_past(of, it), PAST) for name, of in PLACES.items()),
        ("a local part", locals_past, PAST),
        *((f"the marker {of.text}", lambda it, of=of.text: markers_past(of, it), PAST) for of in MARKERS),
        *((f"the marker {of}", lambda it, of=of: markers_past(of, it), PAST) for of in RAISING),
        ("environments", environments_past, PAST),
        ("limits", limits, (*GREATEST, *PAST)),
        ("bounds", bounded, GREATEST),
        ("bounds", bounds_past, PAST),
    )  # fmt: skip


def count():
    """How many there are, each of some runs."""
    return sum(len(numbers) for _, _, numbers in kinds())


def differences(program, words, texts, wanted):
    status, answer, said = wanted
    if said is not None:
        return runs.differences(program, words, texts, (status, answer.encode(), said.encode()))
    ended = runs.ended(program, words, texts)
    return [] if ended[:2] == (status, answer.encode()) and ended[2] else [f"it ended as {ended!r}"]


def tried(program):
    """What each number is of, and what is wrong with its runs."""
    for name, asked, numbers in kinds():
        for number in numbers:
            found = []
            for words, texts, wanted in asked(number):
                found += [f"{words[0]} of {texts}: {it[:300]}" for it in differences(program, words, texts, wanted)]
            yield f"{name}: {number}", found


if __name__ == "__main__":
    sys.exit(runs.command(__doc__, "numerals", tried))
