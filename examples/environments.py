#!/usr/bin/env python3
"""Writes a list of environments for `reqs matrix`, to standard output.

They are those of CPython 3.8 to 3.14 on Linux, macOS and Windows, seven on each
system in this order, and then that of PyPy 3.10 on Linux: the members of PEP
508, as `installed.py` writes those of the interpreter that runs it. The same
list is written each time.
"""

import argparse
import json
import sys

NAME = "environments.py"
CPYTHONS = ("3.8.20", "3.9.24", "3.10.19", "3.11.14", "3.12.12", "3.13.9", "3.14.0")
PYPY, PYPY_PYTHON = "7.3.17", "3.10.14"

# What the system's members are: by `platform` and `os.name`.
LINUX = {
    "os_name": "posix",
    "platform_machine": "x86_64",
    "platform_release": "6.8.0-45-generic",
    "platform_system": "Linux",
    "platform_version": "#45-Ubuntu SMP PREEMPT_DYNAMIC Fri Aug 30 12:02:04 UTC 2024",
    "sys_platform": "linux",
}
MACOS = {
    "os_name": "posix",
    "platform_machine": "arm64",
    "platform_release": "23.6.0",
    "platform_system": "Darwin",
    "platform_version": "Darwin Kernel Version 23.6.0: Mon Jul 29 21:14:30 PDT 2024; "
    "root:xnu-10063.141.2~1/RELEASE_ARM64_T6000",
    "sys_platform": "darwin",
}
WINDOWS = {
    "os_name": "nt",
    "platform_machine": "AMD64",
    "platform_release": "10",
    "platform_system": "Windows",
    "platform_version": "10.0.19045",
    "sys_platform": "win32",
}


def environment(system, implementation, version, python):
    """The members of an interpreter of this version, which speaks this Python."""
    members = {
        "implementation_name": implementation.lower(),
        "implementation_version": version,
        "platform_python_implementation": implementation,
        "python_full_version": python,
        "python_version": ".".join(python.split(".")[:2]),
    }
    return dict(sorted({**system, **members}.items()))


def environments():
    found = [environment(system, "CPython", it, it) for system in (LINUX, MACOS, WINDOWS) for it in CPYTHONS]
    return [*found, environment(LINUX, "PyPy", PYPY, PYPY_PYTHON)]


def main():
    words = argparse.ArgumentParser(
        prog=NAME, description=__doc__, formatter_class=argparse.RawDescriptionHelpFormatter
    )
    words.parse_args()
    try:
        with open(1, "w", encoding="utf-8", closefd=False) as output:
            output.write(json.dumps(environments(), indent=2) + "\n")
    except OSError as error:
        print(f"{NAME}: standard output: {error.strerror}", file=sys.stderr)
        return 2
    return 0


if __name__ == "__main__":
    sys.exit(main())
