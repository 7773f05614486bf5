#!/usr/bin/env python3
"""Prints the sum of the committed sources, by which dist/README.md names what its packages were made from.

    sources.py

The sum is SHA-256 of what `git ls-files -sz . ':!dist'` lists: the mode, the sum and the path of each file outside dist/. So a commit
that changes dist/ alone has the sum of the commit before it. The status is 1, and a sentence says why, where files were
changed since the last commit, or where git can't tell.
"""

import hashlib
import subprocess
import sys

from crates import TOP

# dist/ has what is made from the sources.
WHERE = ["--", ".", ":!dist"]


def listed(*words):
    """What git lists of the files outside dist/. Raises `OSError` where it can't."""
    ran = subprocess.run(["git", *words, *WHERE], cwd=TOP, stdin=subprocess.DEVNULL, capture_output=True)
    if ran.returncode:
        raise OSError(" ".join(ran.stderr.decode(errors="replace").split()) or f"git ended with status {ran.returncode}")
    return ran.stdout


def sources():
    """The sum in hexadecimal digits. Raises `OSError` where git can't tell, `ValueError` where files were changed since."""
    changed = listed("status", "--porcelain", "-z").decode(errors="replace").split("\0")[0]
    if changed:
        raise ValueError(f"what is committed isn't what lies there: {changed[3:]}")
    return hashlib.sha256(listed("ls-files", "-sz")).hexdigest()


def main():
    try:
        print(sources())
    except (OSError, ValueError) as error:
        print(f"sources: {error}", file=sys.stderr)
        return 1
    return 0


if __name__ == "__main__":
    sys.exit(main())
