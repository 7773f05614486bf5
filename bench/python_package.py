#!/usr/bin/env python3
"""Times the Python package fowlyore beside packaging: the installed one, or else the copy inside pip.

    python_package.py [LIBRARY] [--write]

LIBRARY is libreqs.so, which `./build reqs_c` makes. It is called by the extension, which is compiled first, unless the environment
variable FOWLYORE_EXTENSION is `no` or names a file of it. Each time is the least of several runs, in microseconds of the processor for one
operation, and the last column tells how many times as long packaging takes. Then come markers of pairs of extras, which are read
into trees that are exponentially larger: the seconds for one reading. With `--write` it all goes to bench/figures.json.

The bounds: packaging takes at least as long for each operation; three times as long for those with a `*`; and 20 times as long
for what `check` does, over the requirements of all that is installed. The status is 1 where one is missed, which is told.
"""

import argparse
import functools
import importlib.metadata
import operator
import os
import random
import re
import sys
import tempfile
import time
import timeit

sys.dont_write_bytecode = True
import figures

PARSER = argparse.ArgumentParser(description=__doc__, formatter_class=argparse.RawDescriptionHelpFormatter)
PARSER.add_argument("library", nargs="?", default=os.path.join(figures.TOP, "crates", "reqs_c", "out", "libreqs.so"))
WORDS = figures.read_words(PARSER)
os.environ["FOWLYORE_LIBRARY"] = WORDS.library
sys.path.insert(0, os.path.join(figures.TOP, "python"))
from extension.build import compiled  # noqa: E402

FOLDER = tempfile.TemporaryDirectory()
if "FOWLYORE_EXTENSION" not in os.environ:
    os.environ["FOWLYORE_EXTENSION"] = os.path.join(FOLDER.name, "_extension.abi3.so")
    with open(os.environ["FOWLYORE_EXTENSION"], "wb") as file:
        file.write(compiled())

import fowlyore  # noqa: E402
import fowlyore.utils  # noqa: E402
from fowlyore import _native  # noqa: E402

try:
    import packaging
    import packaging.utils
    from packaging.markers import Marker
    from packaging.requirements import Requirement
    from packaging.specifiers import Specifier, SpecifierSet
    from packaging.version import Version
except ImportError:
    import pip._vendor.packaging as packaging
    import pip._vendor.packaging.utils
    from pip._vendor.packaging.markers import Marker
    from pip._vendor.packaging.requirements import Requirement
    from pip._vendor.packaging.specifiers import Specifier, SpecifierSet
    from pip._vendor.packaging.version import Version

TEXTS = ["1.0", "2.31.0", "2024.1.0.dev3", "1.0a1", "1!2.3.post4+ubuntu.1"]
MARKER = "python_version < '3.13' and extra == 'test'"
LINE = f"requests[socks]>=2.8.1,<3 ; {MARKER}"
MANY = 100_000
RUNS = 9
PAIRS = (12, 20)
OURS, THEIRS = f"fowlyore {fowlyore.__version__} by {_native.how()}", f"packaging {packaging.__version__}, Python {sys.version.split()[0]}"
# What was measured, by name, and the bounds that were missed.
FOUND, MISSED = {}, []


def random_texts(count):
    """Versions as an index has them: one in ten is a pre-release or a post-release."""
    chosen = random.Random(1)
    tails = ["rc1", "a2", ".post1", ".dev3", "b1"]
    for _ in range(count):
        numbers = ".".join(str(chosen.randrange(30)) for _ in range(chosen.randrange(2, 5)))
        yield numbers + (chosen.choice(tails) if chosen.random() < 0.1 else "")


def least(call, times, of_each=1):
    """Microseconds of the processor for one of the operations of which a call has `of_each`, without the call itself."""
    return repeated(call, times) / of_each - (NOTHING if of_each == 1 else 0)


def repeated(call, times):
    return min(timeit.repeat(call, number=times, repeat=RUNS, timer=time.process_time)) / times * 1e6


NOTHING = repeated(lambda: None, 200_000)


def row(name, ours, theirs, times=1):
    print(f"{name + '*' * (times > 1):44} {ours:10.3f} {theirs:10.3f} {theirs / ours:7.1f}")
    of = "python_package." + re.sub(r"\W+", "_", name).strip("_")
    FOUND.update({f"{of}.fowlyore": (ours, "µs", OURS), f"{of}.packaging": (theirs, "µs", THEIRS),
                  f"{of}.times": (theirs / ours, "times", f"{THEIRS} beside {OURS}")})
    if theirs < times * ours:
        MISSED.append(f"{name}: {theirs / ours:.2f} times, not {times}")


def rows(name, call, pairs, often, times=1):
    """A row for a call on a pair of values, ours and theirs."""
    row(name, *(least(functools.partial(call, it), often) for it in pairs), times)


def small():
    makes, sets = (fowlyore.Version, Version), (fowlyore.SpecifierSet, SpecifierSet)
    for text in TEXTS:
        row(f"Version({text!r})", *(least(lambda: make(text), 20_000) for make in makes), 3)
    pairs = [(make("2.31.0"), make("2.32.0")) for make in makes]
    row("one < other", *(least(lambda: one < other, 200_000) for one, other in pairs), 3)
    rows("str(Version(..))", lambda make: str(make("2.31.0")), makes, 20_000)
    row("Version(..).release", *(least(lambda: make("2.31.0").release, 20_000) for make in makes), 3)
    rows("Version(..).is_prerelease", lambda make: make("2.31.0").is_prerelease, makes, 20_000)
    rows("Version(..).public", lambda make: make("2.31.0").public, makes, 20_000)
    rows("hash(Version(..))", lambda make: hash(make("2.31.0")), makes, 20_000)
    rows("Specifier('>=1.0')", lambda make: make(">=1.0"), (fowlyore.Specifier, Specifier), 20_000)
    rows("Specifier(..) == Specifier(..)", lambda make: make(">=1.0") == make(">=1.1"), (fowlyore.Specifier, Specifier), 20_000)
    rows("SpecifierSet('>=1.0,<3')", lambda make: make(">=1.0,<3"), sets, 5_000)
    rows("SpecifierSet(..) & SpecifierSet(..)", lambda make: make(">=1.0") & make("<3"), sets, 5_000)
    rows("str(SpecifierSet(..))", lambda make: str(make(">=1.0,<3")), sets, 5_000)
    ranges = [make(">=1.0,<3") for make in sets]
    rows("contains('2.31.0')", lambda it: it.contains("2.31.0"), ranges, 5_000, 3)
    row("contains(Version(..))", *(least(lambda: it.contains(one), 5_000) for it, (one, _) in zip(ranges, pairs)), 3)
    for name, text in (("canonicalize_name", "Foo_.Bar"), ("canonicalize_version", "1.0.0"), ("is_normalized_name", "foo-bar"),
                       ("parse_wheel_filename", "foo_bar-1.0-py3-none-any.whl"), ("parse_sdist_filename", "foo-1.0.tar.gz")):
        calls = [getattr(it, name) for it in (fowlyore.utils, packaging.utils)]
        rows(f"{name}({text!r})", lambda call: call(text), calls, 5_000)


def of_markers():
    makes = (fowlyore.Requirement, Requirement)
    rows("Requirement(..)", lambda make: make(LINE), makes, 1_000, 3)
    rows("str(Requirement(..))", lambda make: str(make("requests[socks]>=2.8.1,<3")), makes, 1_000)
    rows("Marker(..)", lambda make: make(MARKER), (fowlyore.Marker, Marker), 1_000, 3)
    markers = [make(LINE).marker for make in makes]
    rows("marker.evaluate()", lambda it: it.evaluate(), markers, 1_000, 3)
    rows("marker.evaluate(..)", lambda it: it.evaluate({"extra": "test"}), markers, 1_000, 3)
    many = [f"python_version < '3.{it % 20}' and extra == 'x{it}'" for it in range(2_000)]
    fresh = [[make(text) for text in many] for make in (fowlyore.Marker, Marker)]
    row("evaluate(..) of one of 2000, once", *(once(lambda: [it.evaluate({"extra": "x7"}) for it in those], 2_000) for those in fresh))
    for name, call in (("and", operator.and_), ("or", operator.or_)):
        rows(f"marker {name} marker", lambda it: call(it, it), markers, 20_000)
    rows("Marker(..) == Marker(..)", lambda make: make(MARKER) == make("os_name == 'nt'"), (fowlyore.Marker, Marker), 1_000)
    rows("hash(Marker(..))", lambda make: hash(make(MARKER)), (fowlyore.Marker, Marker), 1_000)
    rows("default_environment()", lambda call: call(), (fowlyore.default_environment, packaging.markers.default_environment), 1_000)


def once(call, of_each):
    """Microseconds of the processor for one of the operations that a call makes for the first time."""
    began = time.process_time()
    call()
    return (time.process_time() - began) / of_each * 1e6


def over_installed():
    """What `check` does for the requirements of all that is installed, beside the same by packaging."""
    lines, pairs = [], []
    for it in importlib.metadata.distributions():
        pairs.append((it.metadata["Name"], it.version))
        lines += [of for of in it.requires or () if read_by_both(of)]
    found = {}

    def ours():
        found["ours"] = {it.name for it in fowlyore.check(lines, None, pairs) if it.is_none}

    def theirs():
        found["theirs"] = wanted_by_packaging(lines, pairs)

    times = [min(timeit.repeat(call, number=1, repeat=RUNS, timer=time.process_time)) * 1e3 for call in (ours, theirs)]
    if found["ours"] != found["theirs"]:
        sys.exit(f"python_package.py: the two find other packages wanting: {found['ours'] ^ found['theirs']}")
    of = f"check of {len(lines)} lines, {len(pairs)} installed, in ms"
    print(f"{of:44} {times[0]:10.3f} {times[1]:10.3f} {times[1] / times[0]:7.1f}")
    FOUND.update({"python_package.installed.fowlyore": (times[0], "ms", OURS), "python_package.installed.packaging": (times[1], "ms", THEIRS)})
    if times[1] < 20 * times[0]:
        MISSED.append(f"{of}: {times[1] / times[0]:.2f} times, not 20")


def read_by_both(line):
    try:
        return bool((fowlyore.Requirement(line), Requirement(line)))
    except ValueError:
        return False


def wanted_by_packaging(lines, pairs):
    """The names that some applying line names, and of which none that is installed is what all of these accept."""
    versions, asked = {}, {}
    for name, version in pairs:
        versions.setdefault(packaging.utils.canonicalize_name(name), []).append(Version(version))
    for line in lines:
        it = Requirement(line)
        if it.marker is None or it.marker.evaluate({"extra": ""}):
            asked.setdefault(packaging.utils.canonicalize_name(it.name), []).append(it)
    return {
        name
        for name, those in asked.items()
        if not any(it.url for it in those)
        and not any(all(it.specifier.contains(version, prereleases=True) for it in those) for version in versions.get(name, ()))
    }


def large():
    texts = list(random_texts(MANY))
    sets = [make(">=1.0,!=4.2,<20") for make in (fowlyore.SpecifierSet, SpecifierSet)]
    if [list(it.filter(texts)) for it in sets][0] != list(sets[1].filter(texts)):
        sys.exit("python_package.py: the two filter differently")
    row(f"filter of {MANY} texts, for one", *(least(lambda: list(it.filter(texts)), 1, MANY) for it in sets), 3)
    versions = [[make(text) for text in texts] for make in (fowlyore.Version, Version)]
    of_versions = (least(lambda: list(it.filter(those)), 1, MANY) for it, those in zip(sets, versions))
    row(f"filter of {MANY} versions, for one", *of_versions, 3)
    row(f"sorted, {MANY} versions, for one", *(least(lambda: sorted(those), 1, MANY) for those in versions), 3)


def pairs(number):
    """The processor seconds for the decision tree of a marker of so many pairs of extras."""
    text = " or ".join(f"extra == 'a{it}' and extra == 'b{it}'" for it in range(number))
    began = time.process_time()
    fowlyore.Marker(text).is_true()
    took = time.process_time() - began
    print(f"a marker of {number} pairs of extras: {took:.3f} s")
    FOUND[f"python_package.pairs.{number}"] = took, "s", OURS


if __name__ == "__main__":
    print(f"{'':44} {'fowlyore':>10} {'packaging':>10} {'times':>7}   {THEIRS}")
    small()
    of_markers()
    large()
    over_installed()
    fowlyore.bounds.nodes = None
    for number in PAIRS:
        pairs(number)
    if WORDS.write:
        figures.put(FOUND)
    if MISSED:
        sys.exit("\n".join(["python_package.py: missed:", *MISSED]))
