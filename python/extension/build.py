#!/usr/bin/env python3
"""Compiles the extension of the Python package, by $CC or cc, of the sources in this folder and the headers of this interpreter.

    build.py FILE [FLAG..]

FILE gets the shared object `_extension.abi3.so`, which runs on CPython 3.10 and later. The flags go to the compiler, after its usual
ones. The same sources, headers and compiler make the same file, byte for byte, wherever they lie. The status is 1 where it isn't
compiled, and standard error says why.
"""

import os
import pathlib
import shlex
import subprocess
import sys
import sysconfig
import tempfile

HERE = pathlib.Path(__file__).resolve().parent
TOP = HERE.parents[1]
# The headers of an older Python lack what the sources want.
OLDEST = (3, 10)
# (nothing of the machine goes into the file: no path, no time, no number of the build)
FLAGS = (
    "-std=c11 -O2 -g0 -Wall -Wextra -fPIC -fvisibility=hidden -frandom-seed=fowlyore -shared "
    "-Wl,--build-id=none -Wl,-z,now -Wl,-z,relro -Wl,-z,noexecstack -Wl,-s"
).split()


class NotCompiled(Exception):
    """There is no compiler or there are no headers, or the compiler refuses the sources."""


def command(output, flags):
    compiler = shlex.split(os.environ.get("CC") or "cc")
    headers = [f"-I{TOP / 'include'}", f"-I{sysconfig.get_paths()['include']}"]
    paths = [f"-ffile-prefix-map={TOP}=.", f"-ffile-prefix-map={os.path.dirname(output)}=."]
    return [*compiler, *FLAGS, *paths, *headers, *flags, "-o", output, str(HERE / "extension.c")]


def compiled(flags=()):
    """The bytes of the shared object. Raises `NotCompiled` with the reason where there are none."""
    if sys.version_info < OLDEST or sys.implementation.name != "cpython":
        raise NotCompiled(f"{sys.implementation.name} {sys.version.split()[0]} has not the headers of CPython 3.10 or later")
    with tempfile.TemporaryDirectory() as folder:
        output = os.path.join(folder, "_extension.abi3.so")
        words = command(output, flags)
        try:
            ran = subprocess.run(words, stdout=subprocess.PIPE, stderr=subprocess.STDOUT, env={**os.environ, "LC_ALL": "C"})
        except OSError as error:
            raise NotCompiled(f"the compiler {words[0]} can't be run: {error.strerror}") from None
        if ran.returncode:
            raise NotCompiled(f"{words[0]} refuses its sources:\n{ran.stdout.decode('utf-8', 'replace').rstrip()}")
        return pathlib.Path(output).read_bytes()


def main(words):
    if len(words) < 2:
        sys.exit(__doc__)
    try:
        data = compiled(words[2:])
    except NotCompiled as reason:
        sys.exit(f"build.py: {reason}")
    pathlib.Path(words[1]).write_bytes(data)


if __name__ == "__main__":
    main(sys.argv)
