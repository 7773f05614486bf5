"""Environments and extras that are drawn from the text of a marker, among which one has to be looked for."""

import itertools
import re

from alike import MEMBERS, OLD_KEYS, VERSION_KEYS

# A marker's text is read piece by piece: a quoted text, or what stands between two.
PIECE = re.compile(r"'[^']*'|\"[^\"]*\"|[^'\"]+")
TERM = re.compile(r"""([\w.]+)\s*([=!<>~]+|not\s+in|in)\s*(['"])(.*?)\3|(['"])(.*?)\5\s*([=!<>~]+|not\s+in|in)\s*([\w.]+)""")
MOST_DRAWN = 300


def clauses(marker):
    """The texts between a marker's `or`s, brackets and all."""
    found = [""]
    for piece in PIECE.findall(marker):
        first, *others = [piece] if piece[0] in "'\"" else re.split(r"\bor\b", piece)
        found[-1] += first
        found += others
    return found


def texts_near(key, text):
    """What a key may be so that a comparison with this text holds, or doesn't."""
    if key in VERSION_KEYS:
        text = re.sub(r"\.\*$", "", text)
        words = [it for it in re.split(r"[\s,]+", text) if it]
        return [*words, *(f"{it}.post1" if re.search("[a-z]", it) else f"{it}.1" for it in words), "0", "99"]
    return [text, *re.split(r"[\s,]+", text), text + "x", "x" + text, text[:-1], "", *MEMBERS.get(key, ())]


def asked_of(clause):
    """The extras that a clause asks for, and of each key what it may be."""
    extras, keys = [], {}
    for left, sign, _, behind, _, before, turned, right in TERM.findall(clause):
        key, text = left or right, behind if left else before
        if key == "extra":
            extras += [text] if (sign or turned) == "==" else []
        else:
            key = OLD_KEYS.get(key, key)
            keys[key] = list(dict.fromkeys([*keys.get(key, ()), *texts_near(key, text)]))
    return extras, keys


def with_short_version(members):
    full = re.match(r"\s*v?([0-9]+(?:\.[0-9]+)?)", members["python_full_version"])
    return {**members, "python_version": full[1]}


def drawn(draw, marker, base):
    """For each clause of a marker the extras that it asks for, and environments which are another one but for the keys
    that the clause names."""
    for clause in clauses(marker):
        extras, keys = asked_of(clause)
        choices = [*itertools.islice(itertools.product(*keys.values()), MOST_DRAWN * 10)]
        picked = choices if len(choices) <= MOST_DRAWN else draw.shuffled(choices)[:MOST_DRAWN]
        yield extras, [with_short_version({**base, **dict(zip(keys, it))}) for it in picked]
