"""What is said of packages without a version, held against `check` of the lines and candidates that it speaks of."""

import pathlib
import random
import re
import tempfile
import unittest
from unittest import mock

import fowlyore
from fowlyore import Requirement, SpecifierSet, Version, _native, check
from fowlyore.explanations import (
    Explanation, Line, Refusal, _Asking, _kinds, _specifiers_of, _within, check_explained, explain,
)  # fmt: skip
from fowlyore.lists import requirements_input

ENVIRONMENT = {"os_name": "posix"}
# The least of all versions: the line accepts each one, and lets pre-releases in.
ADMITTING = "{}>=0.dev0"
NAMES = {"foo-bar": ["foo-bar", "Foo_Bar", "FOO.bar"], "b": ["b", "B"], "c": ["c"]}
VERSIONS = ["0.9", "1", "1.0", "1.0.0", "1.0a1", "1.0rc1", "1.0.post1", "1.0.dev2", "1.1", "1.5", "2.0b1", "2.0", "2.1", "3"]
OTHERS = ["1.0+x", "2.1+cpu.1", "1!0.1"]
# Other texts of some of these.
SPELLINGS = ["v1.0", "1.0-RC1", "2.1+CPU-1", "2.0.0"]
# Specifiers that accept most versions, and all kinds of them.
MILD = [f"!={it}" for it in [*VERSIONS, *OTHERS, "1.*", "1.0.*", "2.*", "3.*"]] + ["<3", "<2", ">=1", ">1.0", "~=1.0", "<1.1"]
EACH = MILD + [f"{sign}{it}" for sign in ("<", "<=", ">", ">=", "==", "===") for it in VERSIONS]
EACH += [f"{sign}{it}" for sign in ("==", "===") for it in OTHERS]
EACH += ["~=1.0.0", "~=1.0rc1", "~=2.0", "==1.*", "==1.0.*", "==2.*"]
MARKERS = ["os_name == 'posix'", "os_name == 'nt'", "extra == 'test'", "python_version < '3' or os_name == 'java'"]


def of(name, explanations):
    (found,) = (it for it in explanations if it.name == name)
    return found


class Values(unittest.TestCase):
    def test_each_refuses_another(self):
        (found,) = explain(["foo!=3", "foo!=2", "foo!=1"], candidates={"foo": ["1", "2", "3"]})
        lines = [Line(1, "foo!=3"), Line(2, "foo!=2"), Line(3, "foo!=1")]
        refusals = tuple(Refusal(Version(version), (line,)) for version, line in zip("321", lines))
        self.assertEqual(found, Explanation("foo", Version("3"), 3, (), refusals, None))
        said = ["3 is refused by line 1 (foo!=3)", "2 is refused by line 2 (foo!=2)", "1 is refused by line 3 (foo!=1)"]
        self.assertEqual(found.sentences, said)
        self.assertEqual(str(found), "\n".join(said))

    def test_each_kind(self):
        lines = ["", "a>=1  # at least", "a<=0.9", "b==2", "c", "d>=0.9", "e", "e<2 ; os_name == 'no'", "f>=2,<1", "g", "B>2"]
        candidates = {"a": ["0.9", "2.1"], "b": ["1.0", "3.0a1"], "d": ["1.0rc1"], "e": ["2"], "f": ["1.5"], "g": ["1"]}
        self.assertEqual(
            {it.name: it.sentences for it in explain(lines, candidates=candidates)},
            {
                "a": ["2.1 is refused by line 3 (a<=0.9)", "0.9 is refused by line 2 (a>=1  # at least)"],
                "b": ["line 4 (b==2) accepts no candidate; the greatest is 3.0a1"],
                "c": ["there is no candidate of this name"],
                "d": ["1.0rc1 is accepted by all lines, but it is a pre-release, and no line names one"],
                "f": ["line 9 (f>=2,<1) accepts no candidate; the greatest is 1.5"],
            },
        )

    def test_more_than_are_named(self):
        lines = [f"a!={it}" for it in range(9)]
        (found,) = explain(lines, candidates={"a": [str(it) for it in range(9)]})
        said = ["6 is refused by line 7 (a!=6)", "each of the 6 other candidates is refused by some line"]
        self.assertEqual(found.sentences[2:], said)
        (found,) = explain(lines[:4], candidates={"a": [*"0123", "3.0", "3"]})
        self.assertEqual((found.candidates, [str(it.version) for it in found.refusals]), (5, ["3", "3.0", "2"]))
        self.assertEqual(found.sentences[3], "each of the 2 other candidates is refused by some line")
        (found,) = explain(["a<2"] * 5 + ["a>1"], candidates={"a": ["1", "2"]})
        three = "line 1 (a<2), line 2 (a<2), line 3 (a<2)"
        said = [f"2 is refused by {three} and 2 more lines", "1 is refused by line 6 (a>1)"]
        self.assertEqual(found.sentences, said)
        (found,) = explain(["a<1"] * 4, candidates={"a": "1"})
        said = f"{three.replace('2)', '1)')} and one more line accept no candidate; the greatest is 1"
        self.assertEqual(found.sentences, [said])

    def test_prereleases_below_others(self):
        versions = ["1.0.dev1", "1.0rc1", "1.0", "1.1", "1.2", "1.3"]
        (found,) = explain("a<1.3,!=1.1\na!=1.0,!=1.2", candidates={"a": versions})
        self.assertEqual((str(found.prerelease), [str(it.version) for it in found.refusals]), ("1.0rc1", ["1.3", "1.2", "1.1"]))
        said = "each of the 2 other candidates is refused by some line, or is such a pre-release too"
        self.assertEqual(found.sentences[4:], [said])
        (found,) = explain("a", candidates={"a": versions[:2]})
        said = "the other candidate is refused by some line, or is such a pre-release too"
        self.assertEqual((found.refusals, found.sentences[1:]), ((), [said]))

    def test_the_rows(self):
        rows, explanations = check_explained(iter(["a>1", "b"]), ENVIRONMENT, iter([("a", "1"), ("b", "1")]))
        self.assertEqual([str(it) for it in rows], ["a none", "b 1"])
        self.assertEqual([it.name for it in explanations], ["a"])
        self.assertEqual(explain("b", candidates="b 1"), [])
        self.assertRaises(fowlyore.InvalidInput, explain, "b=1", candidates="")


class Calls(unittest.TestCase):
    """What is asked of the library."""

    def asked(self, *given):
        with mock.patch.object(_native, "check", side_effect=_native.check) as calls:
            found = explain(*given)
        return found, [sum(map(len, it.args)) for it in calls.call_args_list]

    def test_their_number(self):
        lines = [f"a!={it}" for it in range(200)] + ["b<2", "b>1", "c>1", "d"]
        candidates = "".join(f"a {it}\n" for it in range(200)) + "b 1\nb 2\nd 1\n"
        found, sizes = self.asked(lines, ENVIRONMENT, candidates)
        self.assertEqual([it.name for it in found], ["a", "b", "c"])
        self.assertLessEqual(len(sizes), 1 + 4 + 3)
        whole = len("\n".join(lines)) + len(candidates)
        self.assertLessEqual(sum(sizes), 30 * whole)

    def test_lines_that_refuse_the_greatest(self):
        lines = [f"a=={it}" for it in range(20)]
        found, sizes = self.asked(lines, ENVIRONMENT, {"a": [str(it) for it in range(15)]})
        self.assertEqual([it.number for it in found[0].lines_without_candidate], [16, 17, 18, 19, 20])
        # (each of 12, 13 and 14 is accepted by some line)
        self.assertLessEqual(len(sizes), 1 + 3 + 17)

    def test_lines_that_accept_nothing(self):
        """What is asked is about as long as lines and candidates together, however many there are."""
        count = 400
        candidates = [f"{it}.0" for it in range(1, count + 1)] + [f"{count}.0+local"]
        above = ["=={}.5", "==={}.5", "=={}.5+local", "=={}.1.*", "~={}.1", ">1000.{}", ">=1000.{}", "==1000.{}", "<1.dev{}", "<=0.{}"]
        for form in above:
            lines = [f"a{form.format(it)}" for it in range(1, count + 1)]
            found, sizes = self.asked(lines, ENVIRONMENT, {"a": candidates})
            self.assertEqual([it.number for it in found[0].lines_without_candidate], list(range(1, count + 1)), form)
            self.assertLessEqual(len(sizes), 1 + 3 + 1, form)
            whole = len("\n".join(lines)) + sum(len(f"a {it}\n") for it in candidates)
            self.assertLessEqual(sum(sizes), 30 * whole, form)

    def test_lines_that_exclude_each(self):
        """Candidates that lie between a line's bounds, and that it accepts none of, are not asked about."""
        count = 400
        forms = [">=1,<2,!=1.*", "~=1.0,!=1.*,!=0", "!=1.*", ">1,<1.1", ">1", "<1.1,!=1.0.*", "<1.0.post1,!=1.0"]
        kinds = {"": "1.{}", "<1": "1.0.dev{}", ">1": "1.0.post{}", ">1.0rc1": "1.0.post{}"}
        kinds["<1.0.post1"] = "1.0.post1.dev{}"
        for front, kind in kinds.items():
            candidates = [kind.format(it) for it in range(1, count + 1)] + ["9", "8", "7"]
            rests = [f"{front or form},!=7,!=8,!=9" for form in (forms if not front else [front])]
            lines = [f"a{rest},!={number + count}" for number in range(100) for rest in rests]
            found, sizes = self.asked(lines, ENVIRONMENT, {"a": candidates})
            accepting = {it for it in rests if any(SpecifierSet(it).filter(candidates, prereleases=True))}
            rest_of = [it[1:].rsplit(",", 1)[0] for it in lines]
            wanted = [number for number, it in enumerate(rest_of, 1) if it not in accepting]
            self.assertEqual([it.number for it in found[0].lines_without_candidate], wanted, front)
            whole = len("\n".join(lines)) + sum(len(f"a {it}\n") for it in candidates)
            self.assertLessEqual(sum(sizes), 30 * whole, front)

    def test_many_packages(self):
        """They are asked about together, and each is told what it would be alone."""
        names = [f"p{it:03}" for it in range(100)]
        lines = [f"{name}{rest}" for name in names for rest in ("!=4", "<4", "!=3,!=2,!=1", ">=1")]
        candidates = {name: ["1", "2", "3", "4"][number % 5 :] for number, name in enumerate(names)}
        found, sizes = self.asked(lines, ENVIRONMENT, candidates)
        self.assertEqual([it.name for it in found], names)
        self.assertLessEqual(len(sizes), 1 + 3 + 1 + 1)
        batches = mock.patch.object(fowlyore.explanations, "BATCH", 400)
        with batches, mock.patch.object(_native, "check", side_effect=_native.check) as calls:
            self.assertEqual(explain(lines, ENVIRONMENT, candidates), found)
        asked = [len(it.args[0]) + len(it.args[2]) for it in calls.call_args_list[1:]]
        self.assertLessEqual(max(asked), 400)
        for number, it in enumerate(found[:10]):
            others = [line if 4 * number <= at < 4 * number + 4 else "" for at, line in enumerate(lines)]
            self.assertEqual(explain(others, ENVIRONMENT, candidates), [it])

    def test_lines_that_accept_one(self):
        """Rounds of calls, in each of which all lines are asked that accepted nothing before."""
        count = 400
        others = [",".join(f"!={it}" for it in range(360, count + 2)), "==1.*", ">0,!=1.*,<9", "<1"]
        lines = [f"a=={it}" for it in range(1, count)] + [f"a{it}" for it in others]
        found, sizes = self.asked(lines, ENVIRONMENT, {"a": [str(it) for it in range(1, count + 2)]})
        self.assertEqual([it.text for it in found[0].lines_without_candidate], ["a<1"])
        self.assertLessEqual(len(sizes), 1 + 3 + 4)
        self.assertLessEqual(sum(sizes), 60 * len("\n".join(lines)))

    def test_many_candidates(self):
        """No more of them are offered at once than a call reads, though their normal texts are longer than what was given."""
        lines = ["a<500", "a>500", "a!=999.post1", "b<=700", "b>699", "b!=700"]
        candidates = {"a": [f"{it}-1" for it in range(1000)], "b": [*map(str, range(1000)), "700rc1"]}
        wanted = explain(lines, ENVIRONMENT, candidates)
        self.assertEqual([it.prerelease for it in wanted], [None, Version("700rc1")])
        batches = mock.patch.object(fowlyore.explanations, "BATCH", 1000)
        with batches, mock.patch.object(_native, "check", side_effect=_native.check) as calls:
            self.assertEqual(explain(lines, ENVIRONMENT, candidates), wanted)
        self.assertLessEqual(max(len(it.args[2]) for it in calls.call_args_list[1:]), 1000)

    def test_large_texts(self):
        """Of the lines no more is asked at once than a call reads, though each is asked with another name."""
        lines = [f"a!={it:03}{' ' * 5000}" for it in range(999)]
        found, sizes = self.asked(lines, ENVIRONMENT, {"a": [str(it) for it in range(999)]})
        self.assertEqual([str(it.version) for it in found[0].refusals], ["998", "997", "996"])
        self.assertEqual([[at.number for at in it.lines] for it in found[0].refusals], [[999], [998], [997]])
        self.assertGreater(len(sizes), 6)


class Bounds(unittest.TestCase):
    """A line is asked about no more candidates than it may accept, and about each that it accepts."""

    GREATEST = ["9!1.0", "9!1.1", "9!1.2"]
    OFFERED = [*VERSIONS, *OTHERS, "0", "0.dev0", "1.0.post1.dev0", "1.0.post1+a", "1.0rc1.post2", "2.0b1.dev1", "1.0a1+b.1",
               "1!0.1.dev0", f"{2**64 - 1}", f"1.{2**64 - 1}"]  # fmt: skip
    NAMED = EACH + [
        "==1.0+y", "==1.0.post1", "<=1.0.post1", "<1.0.post1", ">1.0.post1", ">1.0.dev2", "~=1.0.post1", "~=1!0.1", "==1!0.*", ">1!0",
        "===1.0.post1+a", "==1.0.post1+a", "!=1.0+x", f"==1.{2**64 - 1}.*", f"=={2**64 - 1}.*", f"~=1.{2**64 - 1}", "~=0.9.0", ">=2,<1",
        f"~={2**64 - 1}.0", "==1.0.0.0.*", "~=1.0.0.dev1", "<0.dev1", "== v1.0", "~=1", "", ">= 1.0 , < 2",
    ]  # fmt: skip

    def test_each_specifier(self):
        choose = random.Random(7)
        valid = [it for it in self.NAMED if it != "~=1"]
        pairs = [",".join(filter(None, choose.sample(valid, 2))) for _ in range(150)]
        lines = [f"{choose.choice(['a', 'A[x]', 'a '])}{it}" for it in valid + pairs]
        # (so that no line accepts the three greatest)
        lines = [f"{it}{'' if it.rstrip(' ]x[').lower() == 'a' else ','}!=9!1.*" for it in lines]
        for _ in range(6):
            offered = choose.sample(self.OFFERED, choose.choice([1, 2, 5, len(self.OFFERED)]))
            (found,) = explain(lines, ENVIRONMENT, {"a": [*offered, *self.GREATEST]})
            wanted = [number for number, it in enumerate(lines, 1) if self.accepts_none(it, offered)]
            self.assertEqual([it.number for it in found.lines_without_candidate], wanted, offered)
            self.assertTrue(wanted)

    def test_many_greatest_numbers(self):
        """A specifier may have as many of them as a line has room for."""
        for end in (".*", ".0"):
            line = f"a{'==' if end == '.*' else '~='}1" + f".{2**64 - 1}" * 3000 + end
            (found,) = explain([line], candidates={"a": [str(it) for it in range(9)]})
            self.assertEqual([it.number for it in found.lines_without_candidate], [1])
            accepted = line[3:].replace(".*", ".1")
            self.assertEqual(explain([line], candidates={"a": [*map(str, range(9)), accepted]}), [])

    def within(self, rest, kind):
        return _within(_specifiers_of(_Asking(Line(1, f"a{rest}"), rest)), kind)

    def test_lines_without_bounds(self):
        """They may accept each candidate, also what can't be read as specifiers."""
        (kind,) = _kinds([Version(str(it)) for it in range(9)])
        for rest in ("", " [x]", "[x] ; os_name == 'nt'", "@ https://example.org", "=1", "~=1"):
            self.assertEqual(self.within(rest, kind), [range(9)], rest)
        self.assertEqual(self.within(" [x,y] (>2 ,<= 5.0) ; os_name == 'nt'  # <1", kind), [range(3, 6)])
        several = [range(1), range(3, 5), range(6, 9)]
        self.assertEqual(self.within(" (!=1.*, !=2,!=5,!=5.0) # >1", kind), several)

    def test_what_is_within(self):
        """The candidates of each kind that are accepted, each, and no others but beside `===`."""
        choose = random.Random(8)
        rising = sorted({str(it): it for it in map(Version, self.OFFERED)}.values())
        valid = [it for it in self.NAMED if it != "~=1"]
        lists = valid + [",".join(filter(None, choose.sample(valid, 3))) for _ in range(300)]
        excluded = [f"!={it}" for it in (*VERSIONS, *OTHERS, "1.*")]
        lists += [",".join(choose.sample(excluded, 6)) for _ in range(30)]
        for rest in lists:
            parts = [(kind, part) for kind in _kinds(rising) for part in self.within(rest, kind)]
            offered = {kind.versions[at] for kind, part in parts for at in part}
            accepted = set(SpecifierSet(rest).filter(rising, prereleases=True))
            self.assertLessEqual(accepted, offered, rest)
            if "===" not in rest:
                self.assertEqual(offered, accepted, rest)

    def accepts_none(self, line, offered):
        (row,) = check([line, "a>=0.dev0"], ENVIRONMENT, {"a": offered})
        return row.is_none


class Made:
    """A random list of lines, its candidates and what it is asked with."""

    def __init__(self, choose):
        specifiers = choose.choice([MILD, MILD, MILD, EACH])
        self.lines = [self.line(choose, specifiers) for _ in range(choose.randint(1, 18))]
        self.extras = choose.choice([(), ("test",), ("other", "Test")])
        offered = [it for it in sorted(NAMES) for _ in range(choose.choice([0, 2, 3, 4, 4, 5, 6, 9]))]
        self.pairs = [(choose.choice(NAMES[it]), choose.choice(VERSIONS + OTHERS + SPELLINGS)) for it in offered]
        choose.shuffle(self.pairs)
        self.versions = {it: [version for name, version in self.pairs if name in NAMES[it]] for it in NAMES}

    @staticmethod
    def line(choose, specifiers):
        if choose.random() < 0.1:
            return choose.choice(["", "   ", "# b>1", "\t# \u00e9"])
        name = choose.choice(NAMES[choose.choice(["foo-bar", "foo-bar", "b", "c"])])
        extras = choose.choice(["", "", "", "[x]", " [Y , x]"])
        required = ",".join(choose.sample(specifiers, choose.choice([0, 1, 1, 1, 2])))
        if required and choose.random() < 0.2:
            required = f" ({required})"
        marker = f" ; {choose.choice(MARKERS)}" if choose.random() < 0.3 else ""
        front, back = choose.choice(["", "", " ", "\u00a0"]), choose.choice(["", "", "  # why; foo>1", " \r"])
        return front + name + extras + required + marker + back

    def given(self, choose, folder):
        """The list in one of the ways in which it can be given, and its lines."""
        text = "\n".join(self.lines)
        path = pathlib.Path(folder, "list.txt")
        path.write_bytes(text.encode())
        kept = [it for it in self.lines if it.strip() and not it.lstrip().startswith("#")]
        required = [Requirement(re.sub(r"\s#.*", "", it)) for it in kept]
        way = choose.randrange(5)
        if way == 4:
            return required, requirements_input(required).text.decode().split("\n")[:-1]
        return [text, text.encode(), iter(self.lines), path][way], self.lines

    def candidates(self, choose):
        """The candidates in one of the ways in which they can be given."""
        text = "".join(f" {name}\t{version}{choose.choice(['', '  # ' + name])}\n" for name, version in self.pairs)
        return choose.choice([text, f"# c 1\n\n{text}".encode(), iter(self.pairs)])


class Said:
    """What `check` answers about single lines and candidates of a package."""

    def __init__(self, test, name, made, lines):
        self.test, self.name, self.made = test, name, made
        self.versions = made.versions[name]
        self.numbers = [at for at, it in enumerate(lines, 1) if self.rows([it], [])]
        self.lines = {at: lines[at - 1] for at in self.numbers}

    def rows(self, lines, versions):
        """The rows of this package. Of a line that asks for another one there are none."""
        rows = check(lines, ENVIRONMENT, {self.name: versions}, self.made.extras)
        return [it for it in rows if it.name == self.name]

    def greatest(self, numbers, versions):
        (row,) = self.rows([*(self.lines[it] for it in numbers), ADMITTING.format(self.name)], versions)
        return row.version

    def refusing(self, version):
        return [it for it in self.numbers if self.greatest([it], [str(version)]) is None]

    def holds(self, it):
        """Each value and each sentence of an explanation."""
        greatest = self.greatest([], self.versions)
        self.test.assertEqual(str(it.greatest), str(greatest))
        self.test.assertEqual(it.candidates, len({str(Version(version)) for version in self.versions}))
        without = [number for number in self.numbers if self.greatest([number], self.versions) is None]
        self.test.assertTrue(self.numbers)
        if greatest is None:
            self.test.assertEqual(it, Explanation(self.name))
            self.test.assertEqual(it.sentences, ["there is no candidate of this name"])
            return
        self.same_lines(it.lines_without_candidate, without)
        if without:
            self.test.assertEqual((it.refusals, it.prerelease), ((), None))
            (sentence,) = it.sentences
            self.names_lines(sentence, without, rf" accepts? no candidate; the greatest is {re.escape(str(greatest))}")
        else:
            self.holds_of_the_greatest(it)

    def holds_of_the_greatest(self, it):
        texts = {str(Version(version)): Version(version) for version in self.versions}
        ordered = sorted(texts.values(), reverse=True)
        wanted = [(version, self.refusing(version)) for version in ordered[:3]]
        wanted = [(version, numbers) for version, numbers in wanted if numbers]
        self.test.assertEqual([str(version) for version, _ in it.refusals], [str(version) for version, _ in wanted])
        sentences = list(it.sentences)
        for (_, numbers), refusal in zip(wanted, it.refusals):
            self.same_lines(refusal.lines, numbers)
            front = f"{refusal.version} is refused by "
            sentence = sentences.pop(0)
            self.test.assertTrue(sentence.startswith(front))
            self.names_lines(sentence[len(front) :], numbers, "")
        accepted = self.greatest(self.numbers, self.versions)
        self.test.assertEqual(str(it.prerelease), str(accepted))
        if accepted is not None:
            self.holds_of_a_prerelease(accepted)
            said = f"{accepted} is accepted by all lines, but it is a pre-release, and no line names one"
            self.test.assertEqual(sentences.pop(0), said)
        named = {str(version) for version, _ in wanted} | {str(accepted)}
        self.holds_of_the_others([version for version in ordered if str(version) not in named], accepted, sentences)

    def holds_of_a_prerelease(self, version):
        self.test.assertTrue(version.is_prerelease)
        for number in self.numbers:
            self.test.assertEqual(self.greatest([number], [str(version)]), version)
            (row,) = self.rows([self.lines[number]], [str(version)])
            self.test.assertTrue(row.is_none)

    def holds_of_the_others(self, others, accepted, sentences):
        for version in others:
            is_such = accepted is not None and version.is_prerelease and version <= accepted
            self.test.assertTrue(self.refusing(version) or is_such)
        if not others:
            self.test.assertEqual(sentences, [])
            return
        front = f"each of the {len(others)} other candidates" if len(others) > 1 else "the other candidate"
        back = "" if accepted is None else ", or is such a pre-release too"
        self.test.assertEqual(sentences, [f"{front} is refused by some line{back}"])

    def same_lines(self, found, numbers):
        self.test.assertEqual(list(found), [Line(it, self.lines[it].strip()) for it in numbers])

    def names_lines(self, words, numbers, end):
        """Up to three lines are named, and the others counted."""
        named = [f"line {it} ({self.lines[it].strip()})" for it in numbers[:3]]
        left = len(numbers) - 3
        if left > 0:
            named.append("one more line" if left == 1 else f"{left} more lines")
        listed = f"{', '.join(named[:-1])} and {named[-1]}" if len(named) > 1 else named[0]
        self.test.assertRegex(words, f"^{re.escape(listed)}{end}$")


class Property(unittest.TestCase):
    LISTS = 500

    def test_random_lists(self):
        choose = random.Random(51)
        kinds = dict.fromkeys(("no candidate", "lines", "refusals", "prerelease", "both", "others"), 0)
        with tempfile.TemporaryDirectory() as folder:
            for number in range(self.LISTS):
                made = Made(choose)
                given, lines = made.given(choose, folder)
                with self.subTest(number=number, lines=lines, candidates=made.pairs, extras=made.extras):
                    found = explain(given, ENVIRONMENT, made.candidates(choose), made.extras)
                    rows = check(lines, ENVIRONMENT, made.pairs, made.extras)
                    self.assertEqual([it.name for it in found], [it.name for it in rows if it.is_none])
                    for it in found:
                        Said(self, it.name, made, lines).holds(it)
                        self.count(kinds, it)
        self.assertGreater(min(kinds.values()), 10, kinds)

    def count(self, kinds, it):
        kinds["no candidate"] += it.greatest is None
        kinds["lines"] += len(it.lines_without_candidate) > 0
        kinds["refusals"] += len(it.refusals) > 0
        kinds["prerelease"] += it.prerelease is not None
        kinds["both"] += it.prerelease is not None and len(it.refusals) > 0
        kinds["others"] += "other candidate" in str(it)
