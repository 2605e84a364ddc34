#!/usr/bin/env python3
"""Holds drivers/egl_words.h against the list of names of the specification, and drivers/calls.h against the table of calls."""
import os
import re
import sys

ROOT = os.path.dirname(os.path.dirname(os.path.dirname(os.path.abspath(__file__))))


def text(*path):
    with open(os.path.join(ROOT, *path), encoding="utf-8") as file:
        return file.read()


def names_of(specification, name):
    block = specification[specification.index(f"\n{name} =\n"):].split("∷ []")[0]
    return re.findall(r'codes "(\w+)"(?:, (pos|negsuc)? ?(\d+))?', block)


def words_of(header, macro):
    block = header[header.index(f"#define {macro}(WORD)"):].split("\n\n")[0]
    return re.findall(r"WORD\((\w+), (-?\w+)(?:, \w+)?\)", block)


def differences():
    names, header = text("crates", "egl_names", "specs", "Names.antt"), text("drivers", "egl_words.h")
    wanted = [name for part in ("errors", "config_attributes", "other_egl_names", "gl_names") for name, _, _ in names_of(names, part)]
    if [name for name, _ in words_of(header, "EGL_WORDS")] != wanted:
        yield "the names aren't those of the specification"
    plain = [(name, str(int(number) if sign == "pos" else -1 - int(number))) for name, sign, number in names_of(names, "plain_words")]
    if words_of(header, "PLAIN_WORDS") != plain:
        yield "the words for numbers aren't those of the specification"
    if words_of(header, "BIT_WORDS") != [(name, number) for name, _, number in names_of(names, "bit_words")]:
        yield "the words for bits aren't those of the specification"
    numbers = [int(number, 16) for name, number in words_of(header, "EGL_WORDS") if name.startswith("EGL_")]
    if len(set(numbers)) != len(numbers):
        yield "two names of EGL have one number"
    tables = "".join(text("crates", "call_table", "src", f"{table}_table.rt") for table in ("egl", "gl", "own"))
    calls = [(name, len(re.findall(r":", words))) for name, words in re.findall(r'^    \w+ "(\w+)" \[([^\]]*)\]', tables, re.M)]
    rows = re.findall(r' (\w+), \([^)]*\), "(\w*)"\)', text("drivers", "calls.h")) + re.findall(r'    CALL\((\w+), "(\w*)"\)', text("drivers", "calls.h"))
    if sorted((name, len(forms)) for name, forms in rows) != sorted(calls):
        found = [(name, len(forms)) for name, forms in rows]
        yield f"the calls aren't those of the table: {sorted(set(found) ^ set(calls))}"


found = list(differences())
for difference in found:
    print(f"drivers/tests/words.py: {difference}")
sys.exit(1 if found else 0)
