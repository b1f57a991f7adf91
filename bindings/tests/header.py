#!/usr/bin/env python3
"""Compares what the crate dnsm-sys and the package for Python say of dnsm.h with dnsm.h itself: numbers, structs and calls.

    header.py DNSM_H LIB_RS     with the package for Python installed

Prints the differences, and fails if there are any. The module for Go needs no such test: cgo reads the header.
"""

import ctypes
import re
import sys

import dnsm
from dnsm import _calls

RUST = {"uint8_t": "u8", "uint16_t": "u16", "uint32_t": "u32", "uint64_t": "u64", "size_t": "usize", "char": "c_char"}
PYTHON = {
    "u8": ctypes.c_uint8,
    "u16": ctypes.c_uint16,
    "u32": ctypes.c_uint32,
    "u64": ctypes.c_uint64,
    "usize": ctypes.c_size_t,
    "bool": ctypes.c_bool,
    "dnsm_status": ctypes.c_uint32,
    "dnsm_item": _calls.Item,
    "[u16; 4]": ctypes.c_uint16 * 4,
    "[u16; 64]": ctypes.c_uint16 * 64,
    "[u8; 255]": ctypes.c_uint8 * 255,
    "*const c_char": ctypes.c_char_p,
    "*const u8": ctypes.c_char_p,
}
STRUCTS = {
    "dnsm_header": _calls.Header,
    "dnsm_cursor": _calls.Cursor,
    "dnsm_item": _calls.Item,
    "dnsm_opt": _calls.OptFields,
    "dnsm_opt_option": _calls.OptOption,
    "dnsm_new_item": _calls.NewItem,
    "dnsm_draft": _calls.Draft,
    "dnsm_put_item": _calls.PutItem,
    "dnsm_data_field": _calls.DataField,
    "dnsm_saying": _calls.Saying,
    "dnsm_transfer": _calls.Transfer,
    "dnsm_step": _calls.Step,
}
# The names of buffers for octets.
BUFFERS = {"message", "out"}
# In Python a buffer for octets has the same type as one for text. The other pointers to an octet lead to a number.
PYTHON_POINTERS = {
    "*mut c_char": ctypes.POINTER(ctypes.c_char),
    "*mut u8": ctypes.POINTER(ctypes.c_char),
    "*mut usize": ctypes.POINTER(ctypes.c_size_t),
    "*mut u16": ctypes.POINTER(ctypes.c_uint16),
    "*mut u32": ctypes.POINTER(ctypes.c_uint32),
}


# Numbers that are in no enum in Python.
NO_ENUM = {"DNSM_NAME_TEXT", "DNSM_NAME_OCTETS", "DNSM_NAME_KEY", "DNSM_MADE", "DNSM_DO"}
# The enums of Python, by the beginning of the names in dnsm.h.
ENUMS = {
    "": (dnsm.Status, dnsm.Section, dnsm.Flag),
    "FIELD_": (dnsm.FieldKind,),
    "REPLY_": (dnsm.ReplyKind,),
    "STEP_": (dnsm.StepKind,),
    "TRANSFER_": (dnsm.TransferState,),
    "TYPE_": (dnsm.Type,),
    "CLASS_": (dnsm.Class,),
    "OPCODE_": (dnsm.Opcode,),
    "RCODE_": (dnsm.Rcode,),
    "OPTION_": (dnsm.OptionCode,),
    "EDE_": (dnsm.ExtendedErrorCode,),
}


def declaration(text):
    """A declaration of C as a name and its type in Rust."""
    const, kind, star, name, length = re.fullmatch(r"(const )?(\w+) (\*?)(\w+)(?:\[(\d+)\])?", text.strip()).groups()
    kind = RUST.get(kind, kind)
    if star or (length and const):
        kind = ("*const " if const else "*mut ") + kind
    elif length:
        kind = f"[{kind}; {length}]"
    return (name + "_" if name == "type" else name), kind


def read_c(text):
    text = re.sub(r"\s+", " ", re.sub(r"/\*.*?\*/", "", text, flags=re.S))
    numbers = {name: int(number, 0) for name, number in re.findall(r"\b(DNSM_\w+) = (\w+)", text)}
    structs = {
        name: [declaration(it) for it in body.rstrip("; ").split(";")]
        for name, body in re.findall(r"typedef struct (\w+) \{(.*?)\}", text)
    }
    calls = {
        name: ([declaration(it) for it in words.split(",") if it != "void"], RUST.get(result, result))
        for result, name, words in re.findall(r"\b(dnsm_status|uint32_t) (dnsm_\w+)\((.*?)\);", text)
    }
    return numbers, structs, calls


def read_rust(text):
    def pairs(words):
        return [tuple(re.sub("^pub ", "", it.strip()).split(": ")) for it in words.split(",") if it.strip()]

    numbers = {name: int(number, 0) for name, number in re.findall(r"pub const (\w+): \w+ = (\w+);", text)}
    structs = {name: pairs(body) for name, body in re.findall(r"#\[repr\(C\)\]\n[^\n]*\npub struct (\w+) \{(.*?)\}", text, re.S)}
    calls = {name: (pairs(words), result) for name, words, result in re.findall(r"pub fn (\w+)\((.*?)\) -> (\w+);", text, re.S)}
    return numbers, structs, calls


def python_type(name, kind):
    if kind == "*mut u8" and name not in BUFFERS:
        return ctypes.POINTER(ctypes.c_uint8)
    if kind in PYTHON or kind in PYTHON_POINTERS:
        return {**PYTHON, **PYTHON_POINTERS}[kind]
    return ctypes.POINTER(STRUCTS[kind.split()[-1]])


def read(path):
    with open(path, encoding="utf-8") as it:
        return it.read()


def main(header, crate):
    numbers, structs, calls = read_c(read(header))
    rust = read_rust(read(crate))
    found = []

    def compare(what, wanted, got):
        if wanted != got:
            found.append(f"{what}: {got}, and in dnsm.h {wanted}")

    assert len(calls) > 20 and len(structs) > 7 and len(numbers) > 30, "dnsm.h isn't read"
    for what, wanted, got in zip(("numbers", "structs", "calls"), (numbers, structs, calls), rust):
        for name in sorted({*wanted, *got}):
            compare(f"Rust: {name} of {what}", wanted.get(name), got.get(name))
    for name, fields in structs.items():
        wanted = [(field.rstrip("_"), python_type(field, kind)) for field, kind in fields]
        compare(f"Python: {name}", wanted, [(field.rstrip("_"), kind) for field, kind in STRUCTS[name]._fields_])
    compare("Python: the calls", sorted(calls), sorted(_calls._CALLS))
    for name, (words, _) in calls.items():
        compare(f"Python: {name}", [python_type(word, kind) for word, kind in words], _calls._CALLS.get(name))
    named = {f"DNSM_{start}{it.name}": it.value for start, enums in ENUMS.items() for enum in enums for it in enum}
    compare("Python: the numbers", {name: it for name, it in numbers.items() if name not in NO_ENUM}, named)
    print("\n".join(found))
    return bool(found)


sys.exit(main(*sys.argv[1:]))
