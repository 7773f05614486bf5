"""Requirements, by PEP 508."""

import copy
import enum
import pickle
import unittest
import weakref
from unittest import mock

import fowlyore
from fowlyore import InvalidInput, InvalidRequirement, Marker, Requirement, SpecifierSet, _native

LINUX = {"os_name": "posix", "sys_platform": "linux", "platform_system": "Linux", "python_version": "3.11"}
# Markers that have no normal text, or one that says something else than they do if it is read again.
UNPRINTABLE = [
    """os_name != "x' and sys_platform == 'win32\"""",
    """os_name == "a' and sys_platform == 'b\"""",
    "python_full_version in '3.11.4rc1'",
    "implementation_version in '1+x'",
    "implementation_version not in '1.dev3 2!1'",
    "os.name == 'posix'",
    "'win' in sys.platform",
    "python_version < '3' and python_version >= '3'",
    "os_name == 'a' or os_name != 'a'",
    "os_name ~= 'a'",
]
# Pairs of markers of which one has the other's text as its normal text would be.
PRINTED_ALIKE = [
    ("""os_name == "a' and sys_platform == 'b\"""", "os_name == 'a' and sys_platform == 'b'"),
    ("implementation_version in '1+x'", "implementation_version in '1'"),
    ("os.name == 'nt'", "os_name == 'nt'"),
    ("python_full_version in '3.11.4rc1'", "python_full_version == '3.11.4'"),
]


class Requirements(unittest.TestCase):
    def test_parts(self):
        it = Requirement("Foo_Bar [ B, a ] >= 1.0, <2 ; os_name == 'nt'")
        self.assertEqual((it.name, it.extras, it.url), ("Foo_Bar", {"B", "a"}, None))
        self.assertEqual((it.specifier, it.marker), (">=1.0,<2", Marker("os_name == 'nt'")))
        self.assertEqual(str(it), "Foo_Bar[B,a]<2,>=1.0; os_name == 'nt'")

    def test_none(self):
        it = Requirement("foo")
        self.assertEqual((it.extras, it.url, it.marker, str(it.specifier)), (set(), None, None, ""))
        self.assertEqual((str(it), repr(it)), ("foo", "<Requirement('foo')>"))

    def test_a_marker_stands_where_one_is_written(self):
        for text in ("os_name == 'nt' or os_name != 'nt'", "'a' == 'a'", "os_name == 'a' and os_name == 'b'"):
            it = Requirement(f"foo ;\t{text} ")
            self.assertEqual((it.marker, str(it.marker), str(it)), (Marker(text), text, f"foo; {text}"))

    def test_url(self):
        it = Requirement("pip[x] @ https://example.org/pip.whl;a ; python_version < '3'")
        self.assertEqual(it.url, "https://example.org/pip.whl;a")
        self.assertFalse(it.marker.evaluate())
        self.assertIn("pip[x] @ https://example.org/pip.whl;a ; python", str(it))
        self.assertEqual(str(Requirement("pip@https://example.org/x.whl")), "pip @ https://example.org/x.whl")

    def test_equal(self):
        one = Requirement("Foo.Bar[B,a]<2,>=1 ; os_name=='nt'")
        other = Requirement("foo_bar[A,b] (>=1.0, <2.0) ; 'nt' == os_name")
        self.assertEqual(one, other)
        self.assertEqual(hash(one), hash(other))
        for text in ("foo", "foo_bar[b]>=1,<2; os_name=='nt'", "foo_bar[a,b]>=1,<2", "foo_bar[a,b]>=1; os_name=='nt'"):
            self.assertNotEqual(one, Requirement(text))
        self.assertNotEqual(one, str(one))

    def test_equal_without_a_marker_that_always_holds(self):
        one, other = Requirement("foo"), Requirement("foo ; os_name == 'nt' or os_name != 'nt'")
        self.assertEqual(one, other)
        self.assertEqual(hash(one), hash(other))
        self.assertNotEqual(one, Requirement("foo ; os_name == 'nt' and os_name != 'nt'"))

    def test_different_where_markers_print_alike(self):
        for left, right in PRINTED_ALIKE:
            self.assertNotEqual(Requirement(f"foo ; {left}"), Requirement(f"foo ; {right}"))

    def test_parts_can_be_set(self):
        it = Requirement("foo[a]>=1 ; os_name == 'nt'")
        it.name, it.marker = "Foo_2", None
        it.extras.add("B")
        self.assertEqual(str(it), "Foo_2[B,a]>=1")
        self.assertEqual(it, Requirement("foo-2[a,b]>=1"))
        self.assertNotEqual(it, Requirement("foo[a,b]>=1"))

    def test_copies(self):
        for text in ("foo[a]>=1 ; os_name == 'nt'", "foo @ https://example.org/x"):
            it = Requirement(text)
            self.assertEqual(pickle.loads(pickle.dumps(it)), it)
            self.assertEqual(copy.deepcopy(it), it)

    def test_made_once(self):
        """So that none keeps the specifiers and the marker of another one."""
        it = Requirement("foo>=1 ; os_name == 'nt'")
        for made in (it, pickle.loads(pickle.dumps(it))):
            with self.assertRaisesRegex(TypeError, "^a requirement is made once$"):
                made.__init__("bar")
            self.assertEqual(made, Requirement("foo>=1 ; os_name == 'nt'"))

    def test_a_quote_in_a_marker(self):
        it = Requirement("""foo @ https://example.org/;x ; platform_version == "it's" """)
        self.assertTrue(it.marker.evaluate({"platform_version": "it's"}))
        self.assertFalse(it.marker.evaluate({"platform_version": "its"}))

    def test_the_place_of_a_marker(self):
        """In a URL's text a `;` may stand, and a marker has a place in bytes."""
        rows = [
            ("foo @ https://example.org/;os_name=='a' ; os_name == 'b'", "os_name == 'b'"),
            ("foo @ https://example.org/\u00e9;\u00e9 ;  platform_version == '\u00e9;' ", "platform_version == '\u00e9;'"),
            ("foo\u2003>=1 ;\u00a0os_name == 'b'", "os_name == 'b'"),
            ("foo;os_name == ';'", "os_name == ';'"),
        ]
        for text, marker in rows:
            given = Requirement(text).marker
            self.assertEqual(given and given._given, marker, text)
            self.assertEqual(given, marker and Marker(marker), text)
        with self.assertWarns(fowlyore.MarkerInURLWarning):
            self.assertIsNone(Requirement("foo @ https://example.org/;os_name=='a'").marker)

    def test_nothing_is_printed_before_somebody_prints(self):
        """The normal text of such a marker is exponentially long."""
        text = " or ".join(f"extra == 'a{it}' and extra == 'b{it}'" for it in range(10, 22))
        with mock.patch.object(_native, "marker", side_effect=AssertionError):
            it = Requirement(f"foo ; {text}")
            self.assertTrue(it.marker.evaluate({"extra": "a11"}) is it.marker.evaluate({"extra": "b11"}) is False)
            self.assertEqual(it, Requirement(f"foo ; {text} or extra == 'b10' and extra == 'a10'"))
            self.assertEqual(it._line(), f"foo ; {text}")
            self.assertEqual(fowlyore.check([it], candidates="", extras=["a12", "b12"])[0].name, "foo")

    def test_refused(self):
        for text in ("", "foo=1", "foo[a", "foo>=1,<", "foo ; os_name", "foo @ ", "-r base.txt", "foo\n>=1", "foo\ud800"):
            with self.assertRaises(InvalidRequirement, msg=repr(text)):
                Requirement(text)
        with self.assertRaises(TypeError):
            Requirement(None)

    def test_the_place_of_a_fault(self):
        with self.assertRaises(InvalidRequirement) as found:
            Requirement("foo ; platform_version == 'é' and bar")
        error = found.exception
        self.assertEqual((error.line, error.text[error.start : error.end]), (1, "bar"))
        self.assertTrue(str(error).endswith("\n    foo ; platform_version == 'é' and bar\n" + " " * 38 + "^^^"), str(error))

    def test_the_place_of_a_fault_behind_tabs(self):
        for text in ("foo\t; os_name == 'nt'\tand\tbar", "foo ; os_name == 'nt' and bar\n", "foo ; os_name == 'nt' and bar \t\r\n"):
            with self.assertRaises(InvalidRequirement) as found:
                Requirement(text)
            self.assertEqual(found.exception.text, text)
            said = str(found.exception).split("\n")
            self.assertEqual(said[-2:], ["    foo ; os_name == 'nt' and bar", " " * 30 + "^^^"], repr(text))


class InLists(unittest.TestCase):
    """A requirement in a list is the text that it was read from, unless a part was set."""

    def test_one_that_a_print_would_hide(self):
        text = """evil>=1 ; os_name != "x' and sys_platform == 'win32\""""
        candidates = {"evil": ["1.0"]}
        self.assertEqual([str(it) for it in fowlyore.check(text, LINUX, candidates)], ["evil 1.0"])
        self.assertEqual([str(it) for it in fowlyore.check([Requirement(text)], LINUX, candidates)], ["evil 1.0"])
        self.assertTrue(Requirement(text).marker.evaluate(LINUX))

    def test_the_same_as_its_text(self):
        for marker in UNPRINTABLE:
            text = f"foo>=1 ; {marker}"
            for it in (Requirement(text), Requirement(str(Requirement(text)))):
                self.assertTrue(fowlyore.same([it], [text]), text)
                self.assertEqual(it, Requirement(text), text)

    def test_parts_that_were_set(self):
        for marker in UNPRINTABLE:
            it = Requirement(f"foo>=1 ; {marker}")
            it.extras.add("b")
            self.assertTrue(fowlyore.same([it], [f"foo[b]>=1 ; {marker}"]), marker)
        rows = [
            ("name", "Bar_2", "Bar_2[a]>=1 ; os_name == 'nt'"),
            ("extras", {"b", "c"}, "foo[c,b]>=1 ; os_name == 'nt'"),
            ("extras", set(), "foo>=1 ; os_name == 'nt'"),
            ("specifier", SpecifierSet("<2,>=1.5"), "foo[a]>=1.5,<2 ; os_name == 'nt'"),
            ("specifier", SpecifierSet(), "foo[a] ; os_name == 'nt'"),
            ("marker", Marker("os.name == 'posix'"), "foo[a]>=1 ; os.name == 'posix'"),
            ("marker", None, "foo[a]>=1"),
        ]
        for part, value, text in rows:
            for asked in (False, True):
                it = Requirement("foo [a] >= 1 ; os_name == 'nt'")
                before = getattr(it, part) if asked else None
                setattr(it, part, value)
                self.assertTrue(fowlyore.same([it], [text]), (part, value))
                if asked:
                    setattr(it, part, before)
                    self.assertEqual(it._line(), "foo [a] >= 1 ; os_name == 'nt'")

    def test_a_url_that_was_set(self):
        it = Requirement("foo[a] ; os_name == 'nt'")
        it.url = "https://example.org/x;y"
        self.assertEqual(it, Requirement("foo[a] @ https://example.org/x;y ; os_name == 'nt'"))
        self.assertEqual([str(it) for it in fowlyore.check([it], {"os_name": "nt"}, "")], ["foo[a] direct"])
        self.assertEqual(fowlyore.check([it], {"os_name": "posix"}, ""), [])
        it = Requirement("foo @ https://example.org/x ; os_name == 'nt'")
        it.url, it.specifier = None, SpecifierSet(">=1")
        self.assertTrue(fowlyore.same([it], ["foo>=1 ; os_name == 'nt'"]))

    def test_texts_that_print_as_others(self):
        """What counts of a member of an `Enum` that is a text is that text."""
        texts = enum.Enum("texts", {"url": "https://e.org/x", "specifier": ">=1", "name": "b", "extra": "x"}, type=str)
        requirement = Requirement("a")
        requirement.name, requirement.extras, requirement.specifier = texts.name, {texts.extra}, texts.specifier
        self.assertEqual((str(requirement), fowlyore.normal([requirement])), ("b[x]>=1", ["b[x]>=1"]))
        requirement = Requirement("a")
        requirement.url = texts.url
        self.assertEqual((str(requirement), requirement._line()), ("a @ https://e.org/x", "a @ https://e.org/x"))

    def test_specifiers_that_are_none(self):
        requirement = Requirement("a>=1 ; os_name == 'nt'")
        requirement.specifier = None
        self.assertEqual((str(requirement), fowlyore.normal([requirement])), ("a; os_name == 'nt'", ["a ; os_name == 'nt'"]))

    def test_texts_that_are_equal_to_others(self):
        """A part that was set is another one where its characters are others."""
        class Odd(str):
            def __eq__(self, other):
                return True

            def __hash__(self):
                return hash("a")

        for part, value, line in (("name", "b", "b[a]"), ("extras", {Odd("b")}, "a[b]")):
            requirement = Requirement("a[a]")
            setattr(requirement, part, Odd(value) if part == "name" else value)
            self.assertEqual((str(requirement), fowlyore.normal([requirement])), (line, [line]))
        requirement = Requirement("a @ https://e.org/x")
        requirement.url = Odd("https://e.org/y")
        self.assertEqual(requirement._line(), "a @ https://e.org/y")

    def test_texts_that_join_in_another_way(self):
        """As those of templates do, which escape what is joined to them."""
        class Markup(str):
            def __add__(self, other):
                return str(self) + other.replace(">", "&gt;")

            def strip(self, *_):
                return "b"

        requirement = Requirement(Markup("a>=1 ; os_name > 'a'"))
        self.assertEqual(fowlyore.normal([requirement]), ["a>=1 ; os_name > 'a'"])
        requirement.name = Markup("c")
        self.assertEqual(str(requirement), "c>=1; os_name > 'a'")
        self.assertEqual(str(Marker(Markup("os_name > 'a'"))), "os_name > 'a'")

    def test_reading_parts_changes_nothing(self):
        text = "foo [a] >= 1.0 ; os_name == 'nt'"
        it = Requirement(text)
        it.specifier.prereleases = True
        self.assertEqual((it.name, it.extras, it.url, str(it.marker)), ("foo", {"a"}, None, "os_name == 'nt'"))
        self.assertEqual([other._line() for other in (it, copy.deepcopy(it), pickle.loads(pickle.dumps(it)))], [text] * 3)

    def test_parts_that_no_text_has(self):
        """What was set would be read as something else."""
        for part, value in (
            ("name", "foo>=2"), ("name", "foo @"), ("name", ""), ("extras", {"a,b"}), ("extras", {"a]"}),
            ("url", "https://example.org/x ; os_name == 'nt'"), ("url", "https://example.org/x #"), ("url", "x\nbar"),
        ):  # fmt: skip
            it = Requirement("foo")
            setattr(it, part, value)
            with self.assertRaises(InvalidInput, msg=(part, value)) as found:
                fowlyore.check(["bar", it], candidates="")
            self.assertEqual((found.exception.input, found.exception.line), ("requirements", 2))

    def test_a_marker_that_is_none(self):
        it = Requirement("foo")
        it.marker = "os_name == 'nt'"
        for call in (lambda: fowlyore.normal([it]), lambda: hash(it), lambda: it == Requirement("foo")):
            with self.assertRaisesRegex(TypeError, "^a requirement's marker is a Marker or None, not str$"):
                call()

    def test_ends_of_lines(self):
        for text in ("foo\n", "\nfoo ; os_name == 'nt'\r\n", " foo\t"):
            self.assertEqual(fowlyore.normal([Requirement(text), "bar"]), fowlyore.normal([text.strip(), "bar"]))
