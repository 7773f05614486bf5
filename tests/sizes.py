#!/usr/bin/env python3
"""Asks every command at sizes from none to past each constant of the code, with ample memory.

    sizes.py PROGRAM [KIND..]

No contract says when memory may run out, so that a body could give up at more than some number of pieces. Here each kind of
piece stands in each number of NUMBERS, and the answer has to be the one that is made here beside it: packages, lines of a
package, specifiers of a line, extras of a line and on the command line, comparisons of a marker, cases of a package,
candidates, environments; or only those that are named, as `packages`. The last line is `sizes: N passed, M failed`;
tests/least.txt says how many there are at least.
"""

import json
import sys

import runs

NUMBERS = (*range(35), *(it + by for it in (64, 128, 256, 512, 1024, 4096) for by in (-1, 0, 1, 2)))
# Cases double with each line, and 4,096 are the usual limit.
CASES = range(13)
VALUES = ("implementation_name", "os_name", "platform_machine", "platform_python_implementation", "platform_release",
          "platform_system", "platform_version", "sys_platform")
VERSIONS = ("implementation_version", "python_full_version", "python_version")
ENVIRONMENT = {**dict.fromkeys(VALUES, "x"), **dict.fromkeys(VERSIONS, "3.9")}
LESS = "p<0\n"


def lines(texts):
    return "".join(f"{it}\n" for it in texts)


def check(requirements, candidates, answer, environment=None, extras=()):
    """`check`, and `matrix` for the environment twice."""
    one = json.dumps({**ENVIRONMENT, **(environment or {})})
    texts = {"R": requirements, "C": candidates}
    yield ["check", "R", "E", "C", *extras], {**texts, "E": one}, 0, answer
    yield ["matrix", "R", "E", "C", *extras], {**texts, "E": f"[{one}, {one}]"}, 0, f"env 1\n{answer}env 2\n{answer}"


def same(left, right, package=None, marker="all environments"):
    """`same`, whose answer is yes where no package is named."""
    yield ["same", "L", "R"], {"L": left, "R": right}, *((1, f"no\n{package}\n{marker}\n") if package else (0, "yes\n"))


def conflicts(requirements, answer):
    yield ["conflicts", "R"], {"R": requirements}, 0, answer


def normal(requirements, answer):
    yield ["normal", "R"], {"R": requirements}, 0, answer


def packages(count):
    names = [f"p{it:04}" for it in range(count)]
    both = lines(f"{it}>=1,<2" for it in names)
    apart = lines(f"{it}{of}" for of in ("<2", ">=1") for it in reversed(names))
    yield from check(both, lines(f"{it} {of}" for it in names for of in (1, 2)), lines(f"{it} 1" for it in names))
    yield from same(both, apart)
    if names:
        yield from same(both, apart + f"{names[-1]}>1\n", names[-1])
    yield from conflicts(lines(f"{it}{of}" for it in names for of in ("<1", ">=1")),
                         lines(f"{it} {2 * at + 1},{2 * at + 2}" for at, it in enumerate(names)))
    yield from normal(lines(f"{it} >=1, <2" for it in names), both)


def lines_of_a_package(count):
    bounds = [f"p>={it}" for it in range(count)]
    found = f"p {count}\n" if bounds else ""
    yield from check(lines(bounds), lines(f"p {it}" for it in range(count + 1)), found)
    yield from same(lines(bounds), lines(reversed(bounds)))
    yield from conflicts(lines(bounds), "")
    if bounds:
        yield from same(lines(bounds), lines(reversed(bounds)) + LESS, "p")
        numbers = ",".join(str(it + 1) for it in range(count + 1))
        yield from conflicts(lines(bounds) + LESS, f"p {numbers}\n")
    yield from normal(lines(f"p >= {it}" for it in range(count)), lines(bounds))


def specifiers(count):
    excluded = [f"!={it}" for it in range(count)]
    line = f"p{','.join(excluded)}\n"
    yield from check(line, lines(f"p {it}" for it in range(count + 1)), f"p {count}\n")
    yield from check(line, lines(f"p {it}" for it in range(count)), "p none\n")
    yield from same(line, f"p{','.join(reversed(excluded))}\n")
    yield from same(line, f"p{','.join([*excluded, f'!={count}'])}\n", "p")
    yield from conflicts(f"{line}p>={count}\n", "")
    yield from conflicts(f"{line}p<0\np>={count}\n", "p 1,2,3\n")
    yield from normal(f"p {' , '.join(excluded)}\n", line)


def extras(count):
    names = [f"e{it:04}" for it in range(count)]
    shown = f"[{','.join(names)}]" if names else ""
    yield from check(f"p{shown}\n", "p 1\n", f"p{shown} 1\n")
    yield from check("p\n" + lines(f"p[{it}]" for it in reversed(names)), "p 1\n", f"p{shown} 1\n")
    yield from same(f"p{shown}\n", "p\n" + lines(f"p[{it}]" for it in names))
    yield from same(f"p{shown}\n", f"p{shown}\np[f]\n", "p")
    yield from conflicts(f"p{shown}>1\np<1\n", "p 1,2\n")
    yield from normal(f"p [ {' , '.join(names)} ]\n", f"p{shown}\n")


def extras_asked(count):
    names = [f"e{it:04}" for it in range(count)]
    requirements = lines(f"{it} ; extra == '{it}'" for it in names)
    yield from check(requirements, lines(f"{it} 1" for it in names), lines(f"{it} 1" for it in names), extras=names)
    yield from check(requirements + "q ; extra == 'f'\n", "", lines(f"{it} none" for it in names), extras=names)


def comparisons(count):
    one_of = " or ".join(f"os_name == '{it:04}'" for it in range(count + 1))
    other = " or ".join(f"os_name == '{it:04}'" for it in reversed(range(count + 1)))
    last = {"os_name": f"{count:04}"}
    yield from check(f"p ; {one_of}\n", "p 1\n", "p 1\n", last)
    yield from check(f"p ; {one_of}\n", "p 1\n", "")
    yield from same(f"p ; {one_of}\n", f"p ; {other}\n")
    yield from same(f"p ; {one_of}\n", f"p ; {one_of} or os_name == 'y'\n", "p", "os_name == 'y'")
    yield from conflicts(f"p<1 ; {one_of}\np>1 ; {other}\n", "p 1,2\n")
    yield from normal(f"p ; {other}\n", f"p ; {one_of}\n")


def cases(count):
    names = [f"e{it:04}" for it in range(count)]
    requirements = lines(f"p!={at + 1} ; extra == '{it}'" for at, it in enumerate(names))
    candidates = lines(f"p {it}" for it in range(count + 1))
    yield from check(requirements, candidates, "p 0\n" if names else "", extras=names)
    yield from same(requirements, lines(reversed(requirements.splitlines())))
    if names:
        all_apply = " and ".join(f"extra == '{it}'" for it in names)
        yield from same(requirements, requirements.replace(f"!={count} ", f"!={count}.5 "), "p", all_apply)
    yield from conflicts(requirements, "")
    # (a line in two parts, which make more cases than a line)
    if 0 < count < 12:
        one, *others = requirements.splitlines()
        yield from same(requirements, lines([f"{one} and os_name == 'x'", f"{one} and os_name != 'x'", *others]))
    # (each case of the one list holds together with each of the other)
    if count < 11:
        yield from same(*("p\n" + lines(f"p ; extra == '{of}{it}'" for it in range(count)) for of in "ef"))


def candidates(count):
    texts = [f"p {it}" for it in range(count)]
    found = f"p {count - 1}" if texts else "p none"
    yield from check("p\nq\n", lines(texts), f"{found}\nq none\n")
    yield from check("p\nq\n", lines([*reversed(texts), "q 1"]), f"{found}\nq 1\n")


def environments(count):
    each = [{**ENVIRONMENT, "os_name": f"{it:04}"} for it in range(count)]
    rows = "".join(f"env {it + 1}\n{'' if it == count - 1 else 'p 1'}\n".replace("\n\n", "\n") for it in range(count))
    texts = {"R": f"p ; os_name != '{count - 1:04}'\n", "E": json.dumps(each), "C": "p 1\n"}
    yield ["matrix", "R", "E", "C"], texts, 0, rows


PIECES = (packages, lines_of_a_package, specifiers, extras, extras_asked, comparisons, candidates, environments)
# Each kind, and its numbers.
KINDS = ((cases, CASES), *((it, NUMBERS) for it in PIECES))


def count():
    """How many sizes there are."""
    return sum(len(numbers) for _, numbers in KINDS)


def tried(program, names):
    """What each size is, and what is wrong with it."""
    for kind, numbers in KINDS:
        for number in numbers if not names or kind.__name__ in names else ():
            found = []
            for words, texts, status, answer in kind(number):
                wanted = status, answer.encode(), b""
                found += [f"{words[0]}: {it[:300]}" for it in runs.differences(program, words, texts, wanted)]
            yield f"{number} {kind.__name__}", found


if __name__ == "__main__":
    named = sys.argv[2:]
    del sys.argv[2:]
    sys.exit(runs.command(__doc__, "sizes", lambda program: tried(program, named)))
