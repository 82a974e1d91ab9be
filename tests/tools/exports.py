"""The calls and structs that the exports in crates/ have, as C would declare them: what daidalus.h is compared with."""
import functools
import glob
import os
import pathlib
import re

from common import TOP

NUMBERS = {"u8": "uint8_t", "i32": "int32_t", "u32": "uint32_t", "i64": "int64_t", "u64": "uint64_t", "usize": "size_t"}
SIZES = {"uint8_t": 1, "int32_t": 4, "uint32_t": 4, "int64_t": 8, "uint64_t": 8}
# fields that C has in place of a struct of Rust, and those that it names otherwise
FLAT = {("DaaConfig", "numbers"), ("DaaConfig", "cylinder"), ("DaaBoard", "masks")}
RENAMED = {("DaaConfig", "levels"): "level", ("Board", "masks"): "mask"}
STRUCTS = {"Grid": "daa_grid", "LevelNumbers": "daa_level", "Own": "daa_own", "Place": "daa_place", "Course": "daa_course", "Seen": "daa_seen", "DaaSteady": "daa_steady_state",
           "DaaSteadyRule": "daa_steady_rule", "DaaSide": "daa_side_state",
           **{f"Daa{name.capitalize()}": f"daa_{name}_answer" for name in ("alert", "fault", "candidate", "resolution", "recovery", "last")}}


def text_of(crate):
    folder = os.path.join(TOP, "crates", crate, "src")
    return "\n".join(pathlib.Path(name).read_text(encoding="utf-8") for name in sorted(glob.glob(os.path.join(folder, "*.rt"))))


@functools.cache
def lengths():
    """The constants that are lengths of arrays."""
    texts = "\n".join(map(text_of, ("daa_bands", "daa_state", "daa_steady", "daa_numbers")))
    return {name: int(number.replace("_", "")) for name, number in re.findall(r"const (\w+): usize = ([\d_]+);", texts)}


def parts(text):
    """The pairs of a name and a type in a list of fields or parameters."""
    words = re.sub(r"///.*", "", text).split(",")
    return [tuple(word.replace("pub ", "").strip().split(": ")) for word in words if word.strip()]


def rust_structs():
    """The fields of each struct that C shares, in their order."""
    found = {}
    for crate in ("daa_config", "daa_state", "daa_bands", "daa_plane", "daa_steady", "daa_numbers"):
        for name, body in re.findall(r"#\[repr\(C\)\]\n(?:#[^\n]*\n)?pub struct (\w+) \{(.*?)\n\}", text_of(crate), re.S):
            found[name] = parts(body)
    return found


def c_name(name):
    """The struct of C that a struct of Rust is."""
    return STRUCTS.get(name) or re.sub(r"^Daa", "daa_", name).lower()


def numbers_of(structs, name):
    """The numbers of a struct in their order, each as its path in C, its type and the bytes that it begins at, and the size and
    alignment of all."""
    rows, at, widest = [], 0, 1
    for field, kind in structs[name]:
        array = re.fullmatch(r"\[(\w+); (\w+)\]", kind)
        one = array[1] if array else kind
        count = 1 if not array else int(array[2]) if array[2].isdigit() else lengths()[array[2]]
        if one in structs:
            inner, size, align = numbers_of(structs, one)
        else:
            inner, size, align = [("", NUMBERS[one], 0)], SIZES[NUMBERS[one]], SIZES[NUMBERS[one]]
        at = -(-at // align) * align
        path = RENAMED.get((name, field), field)
        for place in range(count):
            head = "" if (name, field) in FLAT else f"{path}[{place}]" if array else path
            rows += [(".".join(filter(None, (head, rest))), it, at + place * size + more) for rest, it, more in inner]
        at, widest = at + count * size, max(widest, align)
    return rows, -(-at // widest) * widest, widest


def c_parameters(text):
    """The parameters of an export, each as a type of C and a name; the length that follows a slice has none."""
    found = []
    for name, kind in parts(text):
        if kind == "Global":
            continue
        held = re.fullmatch(r"&(mut )?(\[)?(\w+)\]?", kind)
        if not held:
            found.append((NUMBERS[kind], name))
            continue
        what = NUMBERS.get(held[3]) or f"struct {c_name(held[3])}"
        found.append((f"{what} *" if held[1] else f"const {what} *", name))
        found += [("size_t", None)] if held[2] else []
    return found


def exports(crate):
    """The exports of a static library: of each its name and its parameters."""
    found = re.findall(r'^pub extern "C" fn (\w+)\(([^)]*)\) -> i32', text_of(crate), re.M)
    return {name: c_parameters(text) for name, text in found}


def declared(header):
    """The calls that a header declares: of each its name and the names of its parameters."""
    text = re.sub(r"/\*.*?\*/", "", header, flags=re.S)
    found = re.findall(r"^int32_t (\w+)\(([^)]*)\);", text, re.M)
    return {name: re.findall(r"(\w+)(?:,|$)", words) if words != "void" else [] for name, words in found}


def checking_program():
    """A C file that compiles only where the header declares each call and each number of each struct as the exports have it."""
    structs = rust_structs()
    lines = ["#include \"daidalus.h\"", ""]
    for name in structs:
        if not name.startswith("Daa") and name not in STRUCTS:
            continue
        rows, size, _ = numbers_of(structs, name)
        kind = f"struct {c_name(name)}"
        lines.append(f'_Static_assert(sizeof({kind}) == {size}, "{kind}");')
        for path, it, at in rows:
            if re.search(r"\[(?!0\])", path):
                continue  # the first of an array stands for all: the struct's size counts them
            held = "char" if path.endswith("id[0]") else it
            lines.append(f'_Static_assert(offsetof({kind}, {path}) == {at} && _Generic((({kind} *)0)->{path}, {held}: 1, '
                         f'default: 0), "{kind} {path}");')
    for crate in ("daa_c", "daa_toml"):
        for name, parameters in exports(crate).items():
            words = ", ".join(it for it, _ in parameters) or "void"
            lines.append(f"int32_t (*const typed_{name})({words}) = {name};")
    return "\n".join([*lines, ""])
