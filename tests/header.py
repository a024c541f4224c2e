#!/usr/bin/env python3
"""Compares the header for C with the library's code, and with the declarations of the example in Rust.

    tests/header.py     prints each difference; the status is 0 if there is none

A function of include/pauseless.h and the export of its name in crates/foreign/src have the same parameters in the same
order: names, types, and what a pointer may write. A struct has the same fields in the same order. A list is a pointer
with a count after it in C, and one slice in the code. The example declares some of the functions and structs, in the
same way, and all codes with their texts.
"""

import glob
import re
import sys

HEADER = "include/pauseless.h"
CODE = ["crates/foreign/src/*.rt", "crates/managed/src/batches.rt"]
RUST = "examples/rust/src/pauseless/calls.rs"

# What C calls how many elements of these types a list has: text, bytes and data words; others have a count.
SIZES = {"u8": "size", "u64": "size"}

# The parameter that is bytes of any type in C, and no text.
BYTES = "bytes"

# The types of the code, as C has them; and a name that C can't have.
TYPES = {"u16": "uint16_t", "u32": "uint32_t", "u64": "uint64_t", "usize": "size_t", "bool": "bool", "u8": "char",
         "Handle": "pauseless_heap", "SizesOfC": "pauseless_sizes", "LayoutOfC": "pauseless_layout",
         "PolicyOfC": "pauseless_policy", "ObjectOfC": "pauseless_object", "CollectedOfC": "pauseless_collected",
         "CountsOfC": "pauseless_counts",
         "StatisticsOfC": "pauseless_statistics", "FieldLoad": "pauseless_field_load"}
NAMES = {"register": "reg"}
RESULTS = {"u32": "pauseless_code", None: "void"}

# The types of the declarations in Rust that are named otherwise.
RUST_TYPES = {"u16": "uint16_t", "u32": "uint32_t", "u64": "uint64_t", "usize": "size_t", "bool": "bool",
              "c_void": "void", "Handle": "pauseless_heap"}


def c_parameter(text):
    """A parameter of the header: its type and its name."""
    kind, name = re.fullmatch(r"(.*?[ *])(\w+)", text.strip()).groups()
    return kind.replace(" *", "*").strip(), name


def in_header(text):
    """The functions of the header: of each name its result and its parameters."""
    functions = {}
    for result, name, parameters in re.findall(r"^(\w+) (pauseless_\w+)\(([^)]*)\);", text, re.M):
        functions[name] = (result, [c_parameter(each) for each in parameters.split(",")])
    return functions


def of_code(name, kind):
    """A parameter of an export, as C has it: one, or two of a slice."""
    name = NAMES.get(name, name)
    slice_of = re.fullmatch(r"&(mut )?\[(\w+)\]", kind)
    if slice_of:
        const = "" if slice_of[1] else "const "
        element = "void" if name == BYTES else TYPES[slice_of[2]]
        return [(const + element + "*", name), ("size_t", SIZES.get(slice_of[2], "count"))]
    pointer = re.fullmatch(r"&(mut )?(\w+)", kind)
    if pointer:
        return [(("" if pointer[1] else "const ") + TYPES[pointer[2]] + "*", name)]
    return [(TYPES[kind], name)]


def in_code(text):
    """The exports of the code, in the same form. The allocator has no bytes, and C doesn't know of it."""
    functions = {}
    for name, parameters, result in re.findall(
            r'pub extern "C" fn (pauseless_\w+)\(([^)]*)\)(?: -> (\w+))?', text):
        pairs = [re.fullmatch(r"(\w+): (.*)", each.strip()).groups() for each in parameters.split(",") if each.strip()]
        pairs = [pair for pair in pairs if pair != ("alloc", "Global")]
        functions[name] = (RESULTS[result or None], [each for pair in pairs for each in of_code(*pair)])
    return functions


def structs_in_header(text):
    """The structs of the header: of each name its fields, in order."""
    structs = {}
    for fields, name in re.findall(r"^typedef struct \w+ \{\n(.*?)^\} (\w+);", text, re.M | re.S):
        fields = re.sub(r"/\*.*?\*/", "", fields, flags=re.S)
        structs[name] = [(kind + star, each.strip())
                         for kind, star, names in re.findall(r"(\w+) (\*?)([\w, ]+);", fields)
                         for each in names.split(",")]
    return structs


def structs_in_code(text):
    """The structs of the code that C knows, in the same form."""
    structs = {}
    found = re.findall(r"#\[repr\(C\)\]\n(?:#\[[^\n]*\]\n)*pub struct (\w+OfC|FieldLoad) \{\n(.*?)^\}", text,
                       re.M | re.S)
    for name, fields in found:
        structs[TYPES[name]] = [(TYPES[kind], each) for each, kind in re.findall(r"pub (\w+): (\w+),", fields)]
    return structs


def of_rust(kind):
    """A type of the declarations in Rust, as C has it."""
    pointer, name = re.fullmatch(r"(\*mut |\*const |)(\w+)", kind).groups()
    name = RUST_TYPES.get(name) or f"pauseless_{name.lower()}"
    return {"*mut ": f"{name}*", "*const ": f"const {name}*", "": name}[pointer]


def pairs_in_rust(text):
    """Parameters or fields of the declarations in Rust: their types, as C has them, and their names."""
    pairs = [each.strip().removeprefix("pub ").split(": ") for each in text.split(",") if each.strip()]
    return [(of_rust(kind), name) for name, kind in pairs]


def in_rust(text):
    """The functions that are declared in Rust, in the form of those of the header."""
    found = re.findall(r"\bfn (pauseless_\w+)\(([^)]*)\)(?: -> ([^;{]+))?;", text)
    return {name: (RESULTS.get(result or None), pairs_in_rust(parameters)) for name, parameters, result in found}


def structs_in_rust(text):
    """The structs that are declared in Rust, in the form of those of the header; one that isn't C's has no fields."""
    found = re.findall(r"(#\[repr\(C\)\]\n(?:#\[[^\n]*\]\n)*)?(?:pub )?struct (\w+) \{\n(.*?)^\}", text, re.M | re.S)
    return {of_rust(name): pairs_in_rust(fields) if is_of_c else [] for is_of_c, name, fields in found}


def codes(text, pattern):
    """The codes: of each name its number and its text."""
    return {name: (number, words) for name, number, words in re.findall(pattern, text, re.M)}


def differences(what, header, code, where="the code"):
    """The lines that tell where the two differ."""
    for name in sorted(header.keys() | code.keys()):
        if header.get(name) != code.get(name):
            yield f"{what} {name}: the header has {header.get(name)}, {where} {code.get(name)}"


def differences_in_rust(header, rust):
    """The same of what is declared in Rust, which needn't declare all functions and structs."""
    declared, structs = in_rust(rust), structs_in_rust(rust)
    if len(declared) != len(re.findall(r"\bfn pauseless_", rust)) or len(declared) < 10 or len(structs) < 5:
        yield f"{RUST} isn't understood"
    for what, known, found in [("function", in_header(header), declared),
                               ("struct", structs_in_header(header), structs)]:
        yield from differences(what, {name: known[name] for name in known.keys() & found.keys()}, found, RUST)
    yield from differences("code", codes(header, r'^    CODE\((\w+), (\d+), (".*?")\)'),
                           codes(rust, r'^    ([A-Z_]+) (\d+) (".*")$'), RUST)


def main():
    header = open(HEADER).read()
    code = "".join(open(path).read() for where in CODE for path in sorted(glob.glob(where)))
    known = structs_in_header(header)
    del known["pauseless_heap"]
    if len(in_header(header)) < 20 or len(known) < 6:
        sys.exit("the header isn't understood")
    found = [*differences("function", in_header(header), in_code(code)),
             *differences("struct", known, structs_in_code(code)),
             *differences_in_rust(header, open(RUST).read())]
    print(*found, sep="\n", end="\n" if found else "")
    return 1 if found else 0


if __name__ == "__main__":
    sys.exit(main())
