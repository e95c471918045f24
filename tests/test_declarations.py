"""The declarations of libpgserial in Rust and Python, beside those of clients/c/pgserial.h: the same functions with the same kinds of
arguments, the same structures, and the same numbers."""

import ctypes
import importlib
import os
import re
import sys
import types
import unittest
from typing import Any, Dict, List, Tuple
from unittest import mock

from tests.program import TOP, Case

HEADER = os.path.join(TOP, "clients/c/pgserial.h")
CALLS = os.path.join(TOP, "clients/rust/src/calls.rs")
LIBRARY = os.path.join(TOP, "clients/rust/src/lib.rs")
# What a kind of C is in Rust.
KINDS = {
    "int": "i32", "uint32_t": "u32", "uint64_t": "u64", "int64_t": "i64", "size_t": "usize", "unsigned char": "u8", "void *": "*mut c_void",
    "const char *": "*const u8", "char *": "*mut u8", "struct pgserial_report *": "*mut Report", "struct pgserial_handle *": "*mut Handle",
}
# What a kind of Rust is in Python.
CTYPES = {"i32": ctypes.c_int, "u32": ctypes.c_uint32, "u64": ctypes.c_uint64, "i64": ctypes.c_int64, "usize": ctypes.c_size_t, "u8": ctypes.c_ubyte,
          "*mut c_void": ctypes.c_void_p, "*const u8": ctypes.c_char_p, "*mut u8": ctypes.c_void_p}
Function = Tuple[str, List[Tuple[str, str]]]
Declared = Dict[str, Function]


def read(path: str) -> str:
    with open(path, encoding="utf-8") as file:
        return file.read()


def split(declared: str) -> Tuple[str, str]:
    """The name and the kind, in Rust, of an argument or a field in C."""
    kind, name = re.fullmatch(r"(.*?)(\w+)", declared.strip(), re.S).groups()  # type: ignore[union-attr]
    return name, KINDS[" ".join(kind.split())]


def plain(header: str) -> str:
    """The header without comments."""
    return re.sub(r"/\*.*?\*/", "", header, flags=re.S)


def in_c(header: str) -> Declared:
    """Of each function its result, and the names and kinds of its arguments."""
    found = re.findall(r"^(\w+) (pgserial_\w+)\(([^)]*)\);", plain(header), re.M)
    return {name: (KINDS[result], [split(it) for it in words.split(",") if it.strip() != "void"]) for result, name, words in found}


def in_rust(calls: str) -> Declared:
    found = re.findall(r"pub fn (pgserial_\w+)\(([^)]*)\) -> (\w+);", calls)
    return {name: (result, re.findall(r"(\w+): ([^,]+)", words)) for name, words, result in found}


def structures_in_c(header: str) -> Dict[str, List[Tuple[str, str]]]:
    found = re.findall(r"struct pgserial_(\w+) \{(.*?)\};", plain(header), re.S)
    return {name: [split(it) for it in fields.split(";") if it.strip()] for name, fields in found}


def structures_in_rust(calls: str) -> Dict[str, List[Tuple[str, str]]]:
    found = re.findall(r"#\[repr\(C\)\](?:\n#[^\n]*)*\npub struct (\w+) \{(.*?)\n\}", calls, re.S)
    return {name.lower(): re.findall(r"pub (\w+): ([^,\n]+)", fields) for name, fields in found}


def numbers_in_c(header: str) -> Dict[str, int]:
    """The numbers of the statuses, and those that are defined, without `PGSERIAL_`."""
    found = re.findall(r"\bPGSERIAL_(\w+) = (\d+)", plain(header)) + re.findall(r"^#define PGSERIAL_(\w+) (\d+)$", plain(header), re.M)
    return {name: int(value) for name, value in found}


def numbers_in_rust(text: str) -> Dict[str, int]:
    return {name: int(value.replace("_", "")) for name, value in re.findall(r"pub const (\w+): \w+ = ([\d_]+);", text)}


class Compared(Case):
    """The two, and that a declaration which is turned is seen."""

    def test_the_functions(self) -> None:
        wanted, came = in_c(read(HEADER)), in_rust(read(CALLS))
        self.same("which functions are declared", sorted(wanted), sorted(came))
        self.assertGreaterEqual(len(wanted), 20)
        for name, function in wanted.items():
            self.same(name, function, came[name])

    def test_the_structures(self) -> None:
        self.same("structures", structures_in_c(read(HEADER)), structures_in_rust(read(CALLS)))
        self.assertEqual(sorted(structures_in_c(read(HEADER))), ["handle", "report"])

    def test_the_numbers(self) -> None:
        wanted, came = numbers_in_c(read(HEADER)), numbers_in_rust(read(CALLS) + read(LIBRARY))
        self.same("numbers", wanted, came)
        self.assertGreaterEqual(len(wanted), 15)

    def test_python(self) -> None:
        """As library.py declares them: of a function that it calls, the kinds of its arguments."""
        with mock.patch.object(sys, "path", [os.path.join(TOP, "clients/python"), *sys.path]):
            module: Any = importlib.import_module("pgserial.library")
        functions = {name: types.SimpleNamespace(argtypes=[], restype=ctypes.c_int) for name in in_c(read(HEADER))}
        functions["pgserial_abi"] = mock.Mock(return_value=module.ABI, argtypes=[], restype=ctypes.c_int)
        with mock.patch.object(ctypes, "CDLL", lambda path: types.SimpleNamespace(_name=path, **functions)):
            module.Library("made up")
        kinds = {**CTYPES, "*mut Report": ctypes.POINTER(module._Report), "*mut Handle": ctypes.POINTER(module._Handle)}
        for name, (result, words) in in_c(read(HEADER)).items():
            came = functions[name]
            self.same(name, (kinds[result], [kinds[kind] for _, kind in words]), (came.restype, came.argtypes))
        for name, fields in structures_in_c(read(HEADER)).items():
            wanted = [(field, kinds[kind]) for field, kind in fields]
            self.same(name, wanted, getattr(module, f"_{name.capitalize()}")._fields_)
        numbers = numbers_in_c(read(HEADER))
        self.same("numbers", numbers, {name: getattr(module, name) for name in numbers})

    def test_what_is_turned_is_seen(self) -> None:
        header = read(HEADER)
        turned = {
            "uint64_t most_schedules": "uint32_t most_schedules", "size_t place, int64_t value": "int64_t value, size_t place",
            "const char *dump, size_t dump_length": "char *dump, size_t dump_length", "int pgserial_forget(": "uint32_t pgserial_forget(",
        }
        for one, other in turned.items():
            self.assertEqual(header.count(one), 1, one)
            self.same(one, False, in_c(header.replace(one, other)) == in_rust(read(CALLS)))
        swapped = header.replace("    void *at;\n    unsigned char is_open;\n", "    unsigned char is_open;\n    void *at;\n")
        self.same("fields", False, structures_in_c(swapped) == structures_in_rust(read(CALLS)))
        self.same("a status", False, numbers_in_c(header.replace("PGSERIAL_MEMORY = 4", "PGSERIAL_MEMORY = 5")) == numbers_in_rust(read(CALLS) + read(LIBRARY)))


if __name__ == "__main__":
    unittest.main()
