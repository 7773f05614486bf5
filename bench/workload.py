#!/usr/bin/env python3
"""Writes a workload for `reqs check`: requirements.txt, environment.json and candidates.txt.

    workload.py [--full] LINES CANDIDATES SEED FOLDER

LINES is the number of requirement lines and CANDIDATES that of candidate lines. The same words give
the same files. Nine lines of ten name a package of their own; the others name one of these again. Few
packages have many candidates, as in an index. One candidate of eight is of a package that no line names.

Lines are `name==N.N` or `name>=N.N`, nearly a third of them with a marker on `python_full_version`; a
candidate is `name N.N`. With `--full` they are what real lists hold: extras, URLs, every operator but
`===`, lists of specifiers, markers of all keys, comments, `# via` lines, and versions with every part.
"""

import itertools
import json
import os
import random
import sys

ENVIRONMENT = {
    "implementation_name": "cpython",
    "implementation_version": "3.11.4",
    "os_name": "posix",
    "platform_machine": "x86_64",
    "platform_python_implementation": "CPython",
    "platform_release": "6.1.0",
    "platform_system": "Linux",
    "platform_version": "#1 SMP",
    "python_full_version": "3.11.4",
    "python_version": "3.11",
    "sys_platform": "linux",
}

# Of environments, beside the interpreter.
SYSTEMS = (
    {"os_name": "posix", "platform_machine": "x86_64", "platform_system": "Linux", "sys_platform": "linux"},
    {"os_name": "posix", "platform_machine": "aarch64", "platform_system": "Linux", "sys_platform": "linux"},
    {"os_name": "posix", "platform_machine": "arm64", "platform_system": "Darwin", "sys_platform": "darwin"},
    {"os_name": "posix", "platform_machine": "x86_64", "platform_system": "Darwin", "sys_platform": "darwin"},
    {"os_name": "nt", "platform_machine": "AMD64", "platform_system": "Windows", "sys_platform": "win32"},
)

PARTS = (
    "aio api app array async auth base batch cache cli client cloud code color config core crypto "
    "csv data date db debug django doc email event fast file flask form geo graph grid hash html "
    "http image index io jinja json key lint log mail map mark math mime mock model net node num "
    "oauth object open parse path pipe plot pool proto proxy py queue rate redis regex render rest "
    "rpc schema search server shell signal sql static store stream sync table task template test "
    "text time token tool trace tree type url util uuid view web wheel work xml yaml zip"
).split()


def make_environments(count, seed):
    """So many environments, no two alike, of which the first is ENVIRONMENT."""
    rng = random.Random(seed)
    found = {json.dumps(ENVIRONMENT): ENVIRONMENT}
    while len(found) < count:
        python = f"3.{rng.randrange(7, 15)}.{rng.randrange(20)}"
        is_pypy = rng.random() < 0.2
        made = {
            **ENVIRONMENT,
            **rng.choice(SYSTEMS),
            "implementation_name": "pypy" if is_pypy else "cpython",
            "implementation_version": f"7.3.{rng.randrange(20)}" if is_pypy else python,
            "platform_python_implementation": "PyPy" if is_pypy else "CPython",
            "python_full_version": python,
            "python_version": python.rpartition(".")[0],
        }
        found[json.dumps(made)] = made
    return list(found.values())


def make_names(rng, count):
    """So many names, no two of one package. Some have capitals, dots and underscores."""
    names, taken = [], set()
    while len(names) < count:
        parts = rng.sample(PARTS, rng.choice((1, 2, 2, 2, 3)))
        if rng.random() < 0.5:
            parts.append(str(rng.randrange(1, 10 * count)))
        key = "-".join(parts)
        if key in taken:
            continue
        taken.add(key)
        if rng.random() < 0.1:
            parts = [part.capitalize() for part in parts]
        names.append(rng.choice("---__.").join(parts))
    return names


def make_version(rng):
    return f"{rng.randrange(12)}.{rng.randrange(40)}"


# What stands behind `;` in full workloads.
MARKERS = (
    "python_version < '3.11'",
    "python_version >= '3.8'",
    "python_version != '3.10'",
    "python_version == '3.11'",
    "python_version ~= '3.9'",
    "python_version in '3.9 3.10 3.11'",
    "python_full_version < '3.11.3'",
    'python_full_version >= "3.7.1"',
    'python_version < "3.12" and python_version >= "3.7"',
    "implementation_name == 'cpython' and python_version >= '3.8'",
    "platform_python_implementation != 'PyPy'",
    "platform_machine not in 'aarch64 arm64'",
    "platform_system == 'Linux'",
    "platform_system != 'Windows' and platform_machine == 'x86_64'",
    "sys_platform == 'win32'",
    "sys_platform == 'linux' or sys_platform == 'darwin'",
    "'linux' in sys_platform",
    "extra == 'test'",
    "extra == 'docs' and python_version < '3.12'",
    "python_version >= '3.7' and (extra == 'docs' or os_name != 'nt')",
    "(os_name == 'posix' or sys_platform == 'darwin') and python_full_version < '3.12.1'",
    "(python_version < '3.9' and os_name == 'nt') or (python_version >= '3.9' and os_name == 'posix')",
)

EXTRAS = ("all", "async", "cli", "Dev_Tools", "docs", "security", "speed", "test", "tls")


def make_full_version(rng):
    numbers = [rng.randrange(9), rng.randrange(30), rng.randrange(15)]
    form = rng.random()
    if form < 0.05:
        numbers = [rng.randrange(2018, 2027), rng.randrange(1, 13)]
    elif form < 0.25:
        numbers = numbers[:2]
    elif form > 0.95:
        numbers.append(rng.randrange(300))
    release = ".".join(map(str, numbers))
    part = rng.random()
    if part < 0.78:
        return release
    if part < 0.88:
        return f"{release}{rng.choice(('a', 'b', 'rc'))}{rng.randrange(5)}"
    if part < 0.92:
        return f"{release}.post{rng.randrange(4)}"
    if part < 0.96:
        return f"{release}.dev{rng.randrange(300)}"
    if part < 0.97:
        return f"{release}rc{rng.randrange(1, 4)}.post1.dev{rng.randrange(9)}"
    if part < 0.999:
        return f"{release}+{rng.choice(('1', 'cu118', 'local.7', 'ubuntu.1'))}"
    return f"1!{release}"


def make_specifiers(rng, version):
    """A list of specifiers, mostly one that takes the version."""
    public = version.partition("+")[0]
    numbers = public.rpartition("!")[2].split(".")
    major = int(numbers[0])
    minor = numbers[1] if numbers[1:] and numbers[1].isdigit() else "0"
    return rng.choice((
        f"=={version}", f"=={version}", f"=={public}", f">={public}", f">={public}",
        f">={major}.{minor},<{major + rng.randrange(1, 4)}", f" >= {major}.{minor} , < {major + 1}",
        f"~={major}.{minor}", f"~={major}.{minor}.0", f"=={major}.*", f"=={major}.{minor}.*",
        f">={major}.0,!={public},!={major}.{minor}.*", f"<{major + 1}.0a1, >={major}.0.dev0",
        f" (>={major}.{minor}, <={major + 2}.99)", f">{major}.{minor}", f"!={public}", "",
    ))


def make_full_line(rng, name, version):
    line = name
    if rng.random() < 0.15:
        line += f"[{','.join(rng.sample(EXTRAS, rng.choice((1, 1, 2))))}]"
    if rng.random() < 0.01:
        line += " @ https://files.example/packages/" + name.lower() + "-1.0-py3-none-any.whl"
    else:
        # A name with a dot may end like that of an archive, which has to have specifiers behind it.
        line += make_specifiers(rng, version) or (">=0" if "." in name else "")
    if rng.random() < 0.35:
        line += f" ; {rng.choice(MARKERS)}"
    if rng.random() < 0.05:
        line += "  # pinned"
    if rng.random() < 0.2:
        line += "\n    # via another-package"
    return line


def make_plain_line(rng, name, version):
    line = f"{name}{rng.choice(('==', '>=', '>='))}{version}"
    if rng.random() < 0.3:
        operator = rng.choice(("==", ">=", ">=", ">="))
        line += f" ; python_full_version {operator} '3.{rng.randrange(6, 14)}'"
    return line


def make_workload(lines, candidates, seed, full=False):
    new_version, new_line = (make_full_version, make_full_line) if full else (make_version, make_plain_line)
    rng = random.Random(seed)
    count = max(1, lines * 9 // 10)
    names = make_names(rng, count + max(1, count // 8))
    wanted, others = names[:count], names[count:]

    weights = list(itertools.accumulate(rng.paretovariate(1.4) for _ in wanted))
    versions = {name: [] for name in wanted}
    offered = []
    for number, name in enumerate(rng.choices(wanted, cum_weights=weights, k=candidates)):
        version = new_version(rng)
        if number % 8 == 7:
            name = rng.choice(others)
        else:
            versions[name].append(version)
        offered.append(f"{name} {version}\n")

    order = wanted + rng.choices(wanted, k=lines - count)
    rng.shuffle(order)
    asked = []
    for name in order:
        version = rng.choice(versions[name] or [new_version(rng)])
        asked.append(new_line(rng, name, version) + "\n")
    return "".join(asked), json.dumps(ENVIRONMENT, indent=2) + "\n", "".join(offered)


def write_workload(lines, candidates, seed, folder, full=False):
    """Writes the files, and returns their paths in the order of the command line."""
    os.makedirs(folder, exist_ok=True)
    paths = []
    texts = make_workload(lines, candidates, seed, full)
    for name, text in zip(("requirements.txt", "environment.json", "candidates.txt"), texts):
        paths.append(os.path.join(folder, name))
        with open(paths[-1], "w", encoding="utf-8") as file:
            file.write(text)
    return paths


if __name__ == "__main__":
    words = [word for word in sys.argv[1:] if word != "--full"]
    if len(words) != 4:
        sys.exit(__doc__)
    write_workload(*map(int, words[:3]), words[3], "--full" in sys.argv[1:])
