"""Calls at sizes from none to past each constant of the library, with ample memory: none gives up."""

import unittest

from fowlyore import Marker, Requirement, SpecifierSet, Version, check, conflicts, default_environment, matrix, normal, same
from fowlyore.utils import canonicalize_name

NUMBERS = (*range(35), *(it + by for it in (64, 128, 256, 512, 1024) for by in (-1, 0, 1, 2)))
# A marker of n comparisons has n nodes one above another.
FEWER = tuple(it for it in NUMBERS if it < 600)


def one_of(key, values):
    return " or ".join(f"{key} == '{it}'" for it in values)


class Sizes(unittest.TestCase):
    def at_each(self, numbers, tried):
        for it in numbers:
            with self.subTest(it):
                tried(it)

    def test_versions(self):
        def tried(count):
            release, local = ".".join(["1", *map(str, range(count))]), ".".join(f"a{it}" for it in range(count + 1))
            for text in (release, f"{release}a{count}.post{count}.dev{count}", f"1.0+{local}"):
                self.assertEqual(str(Version(text)), text)
                self.assertEqual(Version(text), Version(text.upper()))
                self.assertLess(Version(text), Version("2"))
            self.assertEqual(Version(release), Version(release + ".0" * count))
            self.assertLess(Version(f"1.0+{local}"), Version(f"1.0+{local}.0"))

        self.at_each(NUMBERS, tried)

    def test_names_and_urls(self):
        def tried(count):
            name = "Ab" * (count + 1)
            self.assertEqual(canonicalize_name(name), name.lower())
            self.assertEqual(canonicalize_name(f"a{'-._' * count}b"), "a-b" if count else "ab")
            url = f"https://example.org{'/a' * count}/b.whl?{'c' * count}"
            read = Requirement(f"{name}[{name}] @ {url}")
            self.assertEqual((read.name, read.extras, read.url), (name, {name}, url))

        self.at_each(NUMBERS, tried)

    def test_environments(self):
        def tried(count):
            value = "x" * count
            self.assertTrue(Marker(f"os_name == '{value}'").evaluate({"os_name": value}))
            self.assertFalse(Marker(f"os_name == '{value}'").evaluate({"os_name": f"{value}x"}))

        self.at_each(NUMBERS, tried)

    def test_specifiers(self):
        def tried(count):
            texts = [f"!={it}" for it in range(count)]
            them, fewer = SpecifierSet(",".join(texts)), SpecifierSet(",".join([*texts, f"!={count}"]))
            self.assertEqual(len(them), count)
            self.assertEqual([*them.filter(str(it) for it in range(count + 2))], [str(count), str(count + 1)])
            self.assertTrue(them.contains(str(count)))
            self.assertFalse(fewer.contains(str(count)))
            self.assertTrue(fewer.is_subset(them))
            self.assertFalse(them.is_subset(fewer))
            self.assertTrue(fewer.is_disjoint(f"=={count}"))
            self.assertFalse(them.is_disjoint(f"=={count}"))
            self.assertFalse(them.is_empty())
            self.assertTrue(SpecifierSet(",".join([*texts, "<1", ">1"])).is_empty())

        self.at_each(NUMBERS, tried)

    def test_markers(self):
        def tried(count):
            values = [f"v{it}" for it in range(count + 1)]
            them, more = Marker(one_of("os_name", values)), Marker(one_of("os_name", [*values, "w"]))
            self.assertEqual(them, Marker(one_of("os_name", reversed(values))))
            self.assertNotEqual(them, more)
            self.assertTrue(them.evaluate({"os_name": values[-1]}))
            self.assertFalse(them.evaluate({"os_name": "w"}))
            self.assertTrue(them.implies(more))
            self.assertFalse(more.implies(them))
            self.assertTrue(them.is_disjoint(them.negate()))
            self.assertFalse(them.is_disjoint(more))
            self.assertTrue((them | them.negate()).is_true())
            self.assertTrue((them & them.negate()).is_false())
            self.assertEqual(them.negate().negate(), them)

        self.at_each(FEWER, tried)

    def test_simplified_markers(self):
        def tried(count):
            names = [f"e{it}" for it in range(count)]
            them = Marker(" or ".join([*(f"extra == '{it}'" for it in names), "os_name == 'x'"]))
            self.assertEqual(them.simplify_extras(names).is_true(), count > 0)
            self.assertEqual(them.simplify_extras([f"f{it}" for it in range(count)]), them)
            versions = Marker(one_of("python_full_version", [f"3.{it}.1" for it in range(count + 1)]))
            self.assertEqual(versions.simplify_python_versions(f"3.{count}"), Marker(f"python_full_version == '3.{count}.1'"))

        self.at_each(FEWER, tried)

    def test_requirements(self):
        def tried(count):
            names, bounds = [f"e{it}" for it in range(count)], [f"!={it}" for it in range(count)]
            text = f"p[{','.join(names)}]{','.join(bounds)} ; {one_of('os_name', [*names, 'x'])}"
            it = Requirement(text)
            self.assertEqual((it.name, it.extras, it.specifier), ("p", set(names), SpecifierSet(",".join(bounds))))
            self.assertEqual(it.marker, Marker(text.partition(";")[2]))
            self.assertEqual(it, Requirement(str(it)))

        self.at_each(FEWER, tried)

    def test_lists(self):
        environment = default_environment()

        def tried(count):
            names = [f"p{it:04}" for it in range(count)]
            texts = [f"{it}>=1,<2" for it in names]
            apart = [f"{it}{of}" for of in ("<2", ">=1") for it in reversed(names)]
            candidates = {it: ["1", "2"] for it in names}
            rows = [(it, (), "1") for it in names]
            self.assertEqual([(it.name, it.extras, it.outcome) for it in check(texts, environment, candidates)], rows)
            for of in matrix([Requirement(it) for it in texts], [environment] * 2, candidates):
                self.assertEqual([(it.name, it.extras, it.outcome) for it in of], rows)
            self.assertTrue(same(texts, apart))
            self.assertEqual(bool(same(texts, [*apart, *(f"{it}>1" for it in names)])), count == 0)
            told = [(it.name, it.lines) for it in conflicts([f"{it}{of}" for it in names for of in ("<1", ">=1")])]
            self.assertEqual(told, [(it, (2 * at + 1, 2 * at + 2)) for at, it in enumerate(names)])
            self.assertEqual(normal([it.replace(",", " , ") for it in texts]), texts)

        self.at_each(NUMBERS, tried)


if __name__ == "__main__":
    unittest.main()
