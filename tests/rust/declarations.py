#!/usr/bin/env python3
"""Holds what rust/fowlyore declares against include/reqs.h: functions, with the kinds of their arguments and results, the members of
a reply, and numbers; and its licences against the repository's.

    declarations.py [SAID STATUS]

SAID is what `cargo test` said, and STATUS how it ended: its tests count too. Closes with `N passed, M failed`.
"""

import re
import sys
from pathlib import Path

TOP = Path(__file__).resolve().parents[2]
# How a type is written in C and in Rust.
KINDS = {
    "const uint8_t *": "*const u8",
    "uint8_t *": "*mut u8",
    "size_t": "usize",
    "uint64_t": "u64",
    "uint32_t": "u32",
    "int64_t": "i64",
    "reqs_reply": "Reply",
}
# What the header has and the crate has no use for: versions compare by their keys.
UNUSED = {"reqs_version_order"}
# Numbers of the header, by what the crate calls them.
NUMBERS = {
    "ABI": "REQS_ABI",
    "DIFFERENT": "REQS_DIFFERENT",
    "REFUSED": "REQS_REFUSED",
    "MEMORY": "REQS_MEMORY",
    "KEY_REFUSED": "REQS_KEY_REFUSED",
}
LICENCES = ("LICENSE-APACHE", "LICENSE-BSD")
HEADER = re.sub(r"/\*.*?\*/", "", (TOP / "include/reqs.h").read_text(), flags=re.S)
NATIVE = (TOP / "rust/fowlyore/src/native.rs").read_text()


def functions_of_header():
    """Each function of the header: the types of its arguments, as Rust writes them, and of its result."""
    text = re.sub(r"^#.*?$", "", HEADER, flags=re.M)
    found = {}
    for result, name, words in re.findall(r"^(\w+)\s+(reqs_\w+)\(([^)]*)\)", text, flags=re.M):
        arguments = [re.sub(r"\s*\b\w+\s*$", "", it.strip()) for it in words.split(",") if it.strip() not in ("", "void")]
        found[name] = [KINDS[re.sub(r"\s*\*$", " *", it)] for it in arguments], KINDS[result]
    return found


def functions_of_crate():
    """The functions that the crate declares, by name."""
    block = re.search(r'^extern "C" \{(.*?)^\}', NATIVE, flags=re.S | re.M)[1]
    found = {}
    for name, words, result in re.findall(r"fn (\w+)\(([^)]*)\)\s*->\s*(\w+);", block):
        arguments = [it.partition(":")[2].strip() for it in words.split(",") if it.strip()]
        found[name] = arguments, result
    return found


def reply_of_header():
    """The members of a reply in their order, with their types."""
    block = re.search(r"^typedef struct reqs_reply \{(.*?)^\} reqs_reply;", HEADER, flags=re.S | re.M)[1]
    return [(name, KINDS[kind]) for kind, name in re.findall(r"(\w+) (\w+);", block)]


def reply_of_crate():
    """The fields of the crate's reply, which has to be laid out as C does it."""
    block = re.search(r"^#\[repr\(C\)\]\npub\(crate\) struct Reply \{(.*?)^\}", NATIVE, flags=re.S | re.M)
    return re.findall(r"(\w+): (\w+),", block[1]) if block else None


def number_of_header(name):
    found = re.search(rf"\b{name}(?: =)? \(?(-?\d+)", HEADER)
    return found and found[1]


def number_of_crate(name):
    found = re.search(rf"^const {name}: [iu]\d+ = (-?\d+);", NATIVE, flags=re.M)
    return found and found[1]


def compared():
    """What has to be the same: a name, the repository's, and the crate's."""
    header, crate = functions_of_header(), functions_of_crate()
    for name in sorted({*header, *crate} - UNUSED):
        yield name, header.get(name), crate.get(name)
    yield "reqs_reply", reply_of_header(), reply_of_crate()
    for inside, outside in NUMBERS.items():
        yield outside, number_of_header(outside), number_of_crate(inside)
    for name in LICENCES:
        copy = TOP / "rust/fowlyore" / name
        yield name, (TOP / name).read_text(), copy.read_text() if copy.exists() else None


def main(words):
    passed = failed = 0
    for name, wanted, found in compared():
        if wanted is not None and wanted == found:
            passed += 1
        else:
            failed += 1
            print(f"FAILED: {name}: the repository has {str(wanted)[:400]}, the crate {str(found)[:400]}")
    if words:
        said, status = Path(words[0]).read_text(errors="replace"), words[1]
        results = re.findall(r"^test result: .*?(\d+) passed; (\d+) failed", said, flags=re.M)
        passed += sum(int(it[0]) for it in results)
        failed += sum(int(it[1]) for it in results)
        if status != "0" or not results:
            print(said[-4000:])
            failed += 1
    print(f"{passed} passed, {failed} failed")
    return 1 if failed or not passed else 0


if __name__ == "__main__":
    sys.exit(main(sys.argv[1:]))
