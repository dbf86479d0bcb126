#!/usr/bin/env python3
"""Holds include/mv.h and include/mv.hpp against the calls that crates/maruvoog_c exports: a signature, an answer number or a
size that differs fails.

The signatures are read from the core's source and turned into a C++ program that asserts each type and makes each call
both ways. Usage: tests/headers.py LIBRARY (the static library to link with)
"""
import pathlib
import re
import subprocess
import sys
import tempfile

ROOT = pathlib.Path(__file__).resolve().parent.parent
SOURCE = ROOT / "crates/maruvoog_c/src/lib.rt"
ANSWERS = ROOT / "crates/rules/specs/Answers.antt"
LAYOUT = ROOT / "crates/layout/src/lib.rt"
FRAMES = {"MV_CALL_LINE": 29, "MV_ANSWER_LINE": 19}

C_TYPES = {
    "&mut [u64]": "std::uint64_t*, std::size_t",
    "&[u8]": "const std::uint8_t*, std::size_t",
    "&mut [u8]": "std::uint8_t*, std::size_t",
    "u64": "std::uint64_t",
    "u32": "std::uint32_t",
    "u8": "std::uint8_t",
    "usize": "std::size_t",
    "Answer": "mv_answer",
}


def exported():
    """Name, parameter types and result of each exported call."""
    found = re.findall(
        r'#\[unsafe\(no_mangle\)\]\s*pub extern "C" fn (\w+)\(([^)]*)\)\s*->\s*(\w+)', SOURCE.read_text())
    for name, parameters, result in found:
        types = [p.split(":", 1)[1].strip() for p in parameters.split(",") if p.strip()]
        yield name, [C_TYPES[t] for t in types], C_TYPES[result]


def declared():
    """The names that mv.h declares."""
    text = re.sub(r"/\*.*?\*/", "", (ROOT / "include/mv.h").read_text(), flags=re.S)
    return set(re.findall(r"\b(mv_\w+)\(", text))


def answer_numbers():
    """Each refusal's name and number, from the definitions."""
    return re.findall(r"^number_of ([a-z_]+) = (0x[0-9a-f]+)$", ANSWERS.read_text(), flags=re.M)


def sizes():
    """The sizes that mv.h names, from the core's layout."""
    layout = dict(re.findall(r"pub const (\w+): usize = (\d+);", LAYOUT.read_text()))
    return {
        "MV_WORDS": layout["WORDS"], "MV_OBJECTS": layout["OBJECTS"], "MV_LIVE": layout["PLACES"],
        "MV_CHAIN": layout["CHAIN_ROOM"], "MV_LOG": layout["LOG_ROOM"], **FRAMES,
    }


def program(calls):
    lines = ['#include <type_traits>', '#include "mv.hpp"', '#include "both_ways.hpp"', '']
    for name, types, result in calls:
        lines.append(f'static_assert(std::is_same_v<decltype(&{name}), {result} (*)({", ".join(types)})>, "{name}");')
    for name, number in answer_numbers():
        lower, upper = name, name.upper()
        lines.append(f'static_assert(MV_{upper} == {number}, "MV_{upper}");')
        lines.append(f'static_assert(mv::Number::{lower} == mv::Number{{{number}}}, "mv::Number::{lower}");')
    for name, value in sizes().items():
        lines.append(f'static_assert({name} == {value}, "{name}");')
    lines += ['', 'int main() { return both_ways(); }', '']
    return "\n".join(lines)


def run(command):
    done = subprocess.run(command, capture_output=True, text=True)
    if done.returncode != 0:
        print(done.stdout + done.stderr, end="")
    return done.returncode == 0


def main():
    library = sys.argv[1]
    calls = list(exported())
    results = []

    def result(name, passed):
        results.append(passed)
        print(("ok: " if passed else "FAILED: ") + name)

    names = {name for name, _, _ in calls}
    result("mv.h declares the exported calls, and no others", len(names) == 16 and names == declared())
    typed = set(re.findall(r"\b(mv_\w+)\(at\(\)", (ROOT / "include/mv.hpp").read_text()))
    result("mv.hpp has each call on words", typed == names - {"mv_word_count"})
    with tempfile.TemporaryDirectory() as folder:
        source, binary = pathlib.Path(folder) / "headers.cpp", pathlib.Path(folder) / "headers"
        source.write_text(program(calls))
        include = [f"-I{ROOT}/include", f"-I{ROOT}/tests"]
        strict = ["-Wall", "-Wextra", "-Wpedantic", "-Wconversion", "-Wshadow", "-Werror"]
        result("mv.h is plain C11", run(
            ["gcc", "-std=c11", *strict, "-fsyntax-only", "-x", "c", str(ROOT / "include/mv.h")]))
        built = run(["g++", "-std=c++17", "-fno-exceptions", *strict, *include, str(source), library, "-o", str(binary)])
        result("every signature, answer number and size is the core's", built)
        result("each call answers and leaves the same through mv.hpp as through mv.h", built and run([str(binary)]))
    print(f"{sum(results)} passed, {len(results) - sum(results)} failed")
    return 0 if all(results) else 1


sys.exit(main())
