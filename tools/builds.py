"""The kept builds: the files of built/ and the page's module, the list of what each was made of, and whether it is that still.

built/FILES has the version, the toolchain's line, and a row for each file: its length in bytes, its SHA-256, the sum of the
sources that it was made of, and its path from the checkout's top.
"""
import hashlib
import os
import re
import subprocess
import sys

TOP = os.path.dirname(os.path.dirname(os.path.realpath(__file__)))
MODULE = "page/engine.wasm.js"
# Each kept file, and the crates that it is made of.
MADE_OF = {"built/x86-64/daidalus": ("daa_program",), "built/x86-64/libdaa_c.a": ("daa_c",), "built/x86-64/libdaa_toml.a": ("daa_toml",),
           "built/x86-64/libdaidalus.so": ("daa_c", "daa_toml"), "built/aarch64/libdaa_c.a": ("daa_c",),
           "built/aarch64/libdaa_toml.a": ("daa_toml",), MODULE: ("daa_web",)}
HEAD = """# The kept builds, of the proved sources. tools/build makes them anew and writes this list, tools/build --compare compares.
version {version}
toolchain {toolchain}

# length in bytes, SHA-256, sum of the sources, file
"""


def version(top=TOP):
    """The version that the header for C tells: major, minor and patch."""
    with open(f"{top}/crates/daa_c/include/daidalus.h", encoding="ascii") as file:
        number = int(re.search(r"^#define DAA_VERSION (\d+)", file.read(), re.M)[1])
    return f"{number // 10000}.{number // 100 % 100}.{number % 100}"


def date(top=TOP):
    """The date of the version, as CHANGES.md has it."""
    with open(f"{top}/CHANGES.md", encoding="utf-8") as file:
        found = re.search(rf"^## {re.escape(version(top))}, (\d{{4}}-\d\d-\d\d)$", file.read(), re.M)
    return found[1] if found else sys.exit(f"CHANGES.md has no line `## {version(top)}, YEAR-MONTH-DAY`")


def sums_of_sources(top=TOP):
    """The sum of the sources that each kept file is made of now, as ./daidalus has it."""
    rows = list(dict.fromkeys(MADE_OF.values()))
    asked = "source ./daidalus; " + "; ".join(f"take_crates {' '.join(crates)}; sum_of_sources" for crates in rows)
    said = subprocess.run(["bash", "-c", asked], cwd=top, stdin=subprocess.DEVNULL, stdout=subprocess.PIPE, text=True, check=True).stdout.split()
    sums = dict(zip(rows, said, strict=True))
    return {path: sums[crates] for path, crates in MADE_OF.items()}


def row_of(path, sources):
    """The row of a file: its length, its SHA-256 and the sum of its sources."""
    with open(path, "rb") as file:
        text = file.read()
    return len(text), hashlib.sha256(text).hexdigest(), sources


def written(rows, toolchain, top=TOP):
    """The text of built/FILES."""
    return HEAD.format(version=version(top), toolchain=toolchain) + "".join(f"{' '.join(map(str, row))} {path}\n" for path, row in rows.items())


def listed(folder=TOP):
    """The version, and the row of each file, that a list names; nothing where there is none."""
    try:
        with open(f"{folder}/built/FILES", encoding="ascii") as file:
            text = file.read()
    except FileNotFoundError:
        return "", {}
    rows = re.findall(r"^(\d+) ([0-9a-f]{64}) ([0-9a-f]{64}) (\S+)$", text, re.M)
    found = re.search(r"^version (\S+)$", text, re.M)
    return found[1] if found else "", {path: (int(length), text_sum, sources) for length, text_sum, sources, path in rows}


def older(folder=TOP, top=TOP):
    """The kept files of a folder that are not of the sources as they are now, or not what the list says: of each why."""
    _, rows = listed(folder)
    sums, why = sums_of_sources(top), {}
    for path in MADE_OF:
        if path not in rows:
            why[path] = "it is not listed"
        elif not os.path.exists(f"{folder}/{path}"):
            why[path] = "there is none"
        elif row_of(f"{folder}/{path}", sums[path])[:2] != rows[path][:2]:
            why[path] = "it is not the file that is listed"
        elif rows[path][2] != sums[path]:
            why[path] = "its sources have been changed since"
    return why


def has_toolchain():
    return subprocess.run(["bash", "-c", "type -P rt"], stdout=subprocess.DEVNULL).returncode == 0


def folder(top=TOP):
    """A folder with builds of the sources as they are now, as built/ has them: built/ itself, or, where the sources have been changed
    since, one that tools/build makes beside. DAIDALUS_BUILT names another one."""
    named = os.environ.get("DAIDALUS_BUILT")
    if named:
        return os.path.realpath(named)
    why = older(top=top)
    if not why:
        return f"{top}/built"
    beside = f"{top}/out"
    if older(beside, top):
        if not has_toolchain():
            path = next(iter(why))
            sys.exit(f"{path}: {why[path]}, and there is no rt on the PATH to prove and build it anew (docs/CONTRIBUTING.md)")
        subprocess.run([f"{top}/tools/build", "--to", beside], stdin=subprocess.DEVNULL, stdout=sys.stderr, check=True)
    return f"{beside}/built"


def program(top=TOP):
    """The program that ./daidalus runs: the kept one, or one that it proves and builds first where the sources have been changed. None
    where there is none; why not is then said on standard error."""
    asked = subprocess.run(["bash", "-c", "source ./daidalus; asked='' builder='' program=''; find_or_build replay >&2; echo $program"], cwd=top,
                           stdin=subprocess.DEVNULL, stdout=subprocess.PIPE, text=True)
    return asked.stdout.strip() if asked.returncode == 0 else None
