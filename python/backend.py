"""Makes the wheel of the package fowlyore (PEP 517), of the files of this tree and Python's own library alone.

The library is the one that `./build reqs_c` has proved and made, or the file that REQS_LIBRARY names. The extension is compiled by
$CC or cc; where it can't be, standard error says why, and the wheel is without it.
"""

import base64
import glob
import hashlib
import itertools
import os
import re
import shutil
import subprocess
import sys
import zipfile

from extension.build import NotCompiled, compiled

HERE = os.path.dirname(os.path.abspath(__file__))
TOP = os.path.dirname(HERE)
NAME = "fowlyore"
# Both names mean the C library of 2012; pip before 20.3 knows the second alone.
GLIBC = (2, 17)
PLATFORMS = ("manylinux_2_17_x86_64", "manylinux2014_x86_64")
SUMMARY = "Judges lists of Python requirements, and compares them (PEP 440, PEP 508), by a library whose answers are proved"
KEYWORDS = ["requirements", "dependencies", "versions", "specifiers", "markers", "lock files", "packaging", "PEP 440", "PEP 508"]
CLASSIFIERS = [
    "Development Status :: 4 - Beta",
    "Environment :: Console",
    "Intended Audience :: Developers",
    "License :: OSI Approved :: Apache Software License",
    "License :: OSI Approved :: BSD License",
    "Operating System :: POSIX :: Linux",
    "Programming Language :: Python :: 3",
    "Programming Language :: Python :: 3 :: Only",
    *(f"Programming Language :: Python :: 3.{it}" for it in range(8, 14)),
    "Topic :: Software Development :: Build Tools",
    "Topic :: Software Development :: Libraries :: Python Modules",
    "Topic :: System :: Software Distribution",
    "Typing :: Typed",
]
# (these are the fields of that version; what it doesn't know, as License-File, an upload may be refused for)
METADATA = """Metadata-Version: 2.1
Name: {name}
Version: {version}
Summary: {summary}
Keywords: {keywords}
License: Apache-2.0 OR BSD-2-Clause
{classifiers}
Requires-Python: >=3.8
Description-Content-Type: text/markdown

{description}"""


class UnsupportedOperation(Exception):
    """What PEP 517 names so."""


def read(*path):
    with open(os.path.join(TOP, *path), "rb") as file:
        return file.read()


def version():
    return re.search(r'^__version__ = "(.*)"$', read("python", NAME, "__init__.py").decode(), re.M)[1]


def demand_toolchain():
    """Ends this process in one sentence where the library has to be built and the toolchain is missing."""
    if os.environ.get("REQS_LIBRARY") or shutil.which("rt"):
        return
    wheels = sorted(glob.glob(os.path.join(glob.escape(TOP), "dist", f"{NAME}-*.whl")))
    instead = f"pip install {wheels[-1]}" if wheels else "install a wheel that was made elsewhere"
    sys.exit(f"{NAME}: the library has to be proved and built by the Rattle toolchain, and the command rt is not on the PATH: {instead}")


def library():
    """The bytes of the shared library, which has to run with the C library that the tag promises."""
    path = os.environ.get("REQS_LIBRARY")
    if not path:
        demand_toolchain()
        subprocess.run([os.path.join(TOP, "build"), "reqs_c"], check=True, cwd=TOP, stdin=subprocess.DEVNULL)
        path = os.path.join(TOP, "crates", "reqs_c", "out", "libreqs.so")
    data = read(path)
    if glibc_of(data) > GLIBC:
        raise RuntimeError(f"{path} wants glibc {glibc_of(data)}, and the tags {PLATFORMS} promise {GLIBC}")
    return data


def glibc_of(data):
    """The newest version of the C library that a shared object asks for."""
    return max((tuple(map(int, it)) for it in re.findall(rb"\0GLIBC_(\d+)\.(\d+)", data)), default=(0, 0))


# The extension, once it is compiled, or None where it can't be.
_COMPILED = []


def extension():
    """The bytes of the extension, or None where it isn't compiled."""
    if not _COMPILED:
        _COMPILED.append(_extension())
    return _COMPILED[0]


def _extension():
    try:
        data = compiled()
    except NotCompiled as reason:
        print(f"{NAME}: the wheel is made without the extension, so that ctypes calls the library: {reason}", file=sys.stderr)
        return None
    if glibc_of(data) > GLIBC:
        raise RuntimeError(f"the extension wants glibc {glibc_of(data)}, and the tags {PLATFORMS} promise {GLIBC}")
    return data


def pythons():
    """For which interpreters a wheel is and by which interface they call it, each as one or more names with dots between. By
    ctypes any Python 3 calls it, and what has the extension's interface takes that."""
    return ("cp310.py3", "abi3.none") if extension() else ("py3", "none")


def information():
    """The files of the folder dist-info but RECORD."""
    said = {"name": NAME, "version": version(), "summary": SUMMARY, "description": read("docs", "PYTHON.md").decode()}
    said["keywords"] = ",".join(KEYWORDS)
    said["classifiers"] = "\n".join(f"Classifier: {it}" for it in CLASSIFIERS)
    tags = "".join(f"Tag: {'-'.join(it)}\n" for it in itertools.product(*(it.split(".") for it in pythons()), PLATFORMS))
    return {
        "METADATA": METADATA.format(**said).encode(),
        "WHEEL": f"Wheel-Version: 1.0\nGenerator: {NAME}\nRoot-Is-Purelib: false\n{tags}".encode(),
        "entry_points.txt": f"[console_scripts]\n{NAME} = {NAME}.__main__:main\n".encode(),
        "LICENSE-APACHE": read("LICENSE-APACHE"),
        "LICENSE-BSD": read("LICENSE-BSD"),
    }


def files():
    """Each file of the wheel but RECORD, by its path."""
    folder = os.path.join(HERE, NAME)
    names = sorted(it for it in os.listdir(folder) if it.endswith(".py") or it == "py.typed")
    yield from ((f"{NAME}/{it}", read("python", NAME, it)) for it in names)
    yield f"{NAME}/libreqs.so", library()
    if extension():
        yield f"{NAME}/_extension.abi3.so", extension()
    yield from ((f"{NAME}-{version()}.dist-info/{name}", data) for name, data in information().items())


def wheel_name():
    return f"{NAME}-{version()}-{'-'.join(pythons())}-{'.'.join(PLATFORMS)}.whl"


def build_wheel(wheel_directory, config_settings=None, metadata_directory=None):
    # (before anything is said of the extension)
    demand_toolchain()
    name = wheel_name()
    records, made = [], list(files())
    with zipfile.ZipFile(os.path.join(wheel_directory, name), "w") as wheel:

        def write(path, data):
            # (always the same date, so that the same files make the same wheel)
            info = zipfile.ZipInfo(path, (1980, 1, 1, 0, 0, 0))
            info.external_attr = (0o100755 if path.endswith(".so") else 0o100644) << 16
            info.compress_type = zipfile.ZIP_DEFLATED
            wheel.writestr(info, data)

        for path, data in made:
            write(path, data)
            digest = base64.urlsafe_b64encode(hashlib.sha256(data).digest()).rstrip(b"=").decode()
            records.append(f"{path},sha256={digest},{len(data)}\n")
        record = f"{NAME}-{version()}.dist-info/RECORD"
        write(record, "".join([*records, f"{record},,\n"]).encode())
    return name


def prepare_metadata_for_build_wheel(metadata_directory, config_settings=None):
    folder = f"{NAME}-{version()}.dist-info"
    os.makedirs(os.path.join(metadata_directory, folder))
    for name, data in information().items():
        with open(os.path.join(metadata_directory, folder, name), "wb") as file:
            file.write(data)
    return folder


def get_requires_for_build_wheel(config_settings=None):
    demand_toolchain()
    return []


def build_sdist(sdist_directory, config_settings=None):
    raise UnsupportedOperation("the library is proved where the toolchain is: take the wheel, or a clone of the repository")
