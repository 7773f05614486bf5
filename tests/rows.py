"""A run of each command with its answer, as text and as an object; others make its readers, its writer or its memory fail.

The answers are worked out from the rules of the commands.
"""

import json

import objects

USUAL = {
    "implementation_name": "cpython", "implementation_version": "3.11.4", "os_name": "posix", "platform_machine": "x86_64",
    "platform_python_implementation": "CPython", "platform_release": "5.4", "platform_system": "Linux", "platform_version": "#1",
    "python_full_version": "3.11.4", "python_version": "3.11", "sys_platform": "linux",
}
LATER = {**USUAL, "python_full_version": "3.12.1", "python_version": "3.12"}
FORMATS = ("text", "json")


def package(name, version, *extras):
    return {"extras": [*extras], "name": name, "outcome": "version", "version": version}


class Row:
    """A command, its inputs by their paths, its status, and its answer as a text and as an object."""

    def __init__(self, command, inputs, text, answer, status=0):
        self.command, self.status = command, status
        self.inputs = {path: it.encode() for path, it in inputs.items()}
        self.answers = {"text": text.encode(), "json": objects.line_of(answer).encode()}

    def words(self, form="text"):
        return [self.command, *self.inputs, *asking(form)]


def asking(form):
    """The words that ask for a format."""
    return ["--format", "json"] if form == "json" else []


def fault(form, text):
    """What is written of a fault in a format, by the text of it."""
    line = f"reqs: {text}\n"
    return (objects.line_of({"error": objects.object_of_fault(line)}) if form == "json" else line).encode()


ROWS = (
    Row("check", {"R": "foo[b,a]>=1\nfoo[c]<2\n", "E": json.dumps(USUAL), "C": "foo 1.5\nfoo 2.0\n"}, "foo[a,b,c] 1.5\n",
        {"packages": [package("foo", "1.5", "a", "b", "c")]}),
    Row("matrix", {"R": "foo ; python_version in '3.9 3.10 3.11'\n", "E": json.dumps([USUAL, LATER]), "C": "foo 1.0\n"},
        "env 1\nfoo 1.0\nenv 2\n",
        {"environments": [{"number": 1, "packages": [package("foo", "1.0")]}, {"number": 2, "packages": []}]}),
    Row("same", {"LEFT": "foo==1.*\n", "RIGHT": "foo==1.0.*\n"}, "no\nfoo\nall environments\n",
        {"marker": None, "package": "foo", "same": False}, status=1),
    Row("covers", {"LOCK": "foo==1.2 ; os_name == 'nt'\n", "REQS": "bar\nfoo>=1\nfoo<2\n"}, "no\nbar\nall environments\n1\n",
        {"covers": False, "lines": [1], "marker": None, "package": "bar"}, status=1),
    Row("conflicts", {"R": "foo>=2\nfoo<1 ; os_name == 'a'\n"}, "foo 1,2\n",
        {"conflicts": [{"lines": [1, 2], "package": "foo", "prerelease": False}]}),
    Row("normal", {"R": "Foo_Bar [b , a] < 2.0 , >= 1.16 ; python_version >= \"3.8\"\n"},
        "foo-bar[b,a]>=1.16,<2.0 ; python_full_version >= '3.8'\n",
        {"requirements": ["foo-bar[b,a]>=1.16,<2.0 ; python_full_version >= '3.8'"]}),
)
# Inputs whose answer is empty.
EMPTY = (
    Row("check", {"R": "", "E": json.dumps(USUAL), "C": "foo 1.0\n"}, "", {"packages": []}),
    Row("matrix", {"R": "foo\n", "E": "[]", "C": ""}, "", {"environments": []}),
    Row("conflicts", {"R": "foo\n"}, "", {"conflicts": []}),
    Row("normal", {"R": "# nothing\n"}, "", {"requirements": []}),
)
