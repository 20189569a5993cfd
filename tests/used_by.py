#!/usr/bin/env python3
"""Writes into the head of each lemma file (crates/*/proofs/*.antt) a comment that says who uses it.

Functions and laws are in backticks, other lemma files of the crate by name, then crates above, but for those of tests
(`*_tests`). Run it by hand at the top of the repository, or give the top as the argument. It goes by imports, and by
`using(..)` in the code.
"""
import collections
import glob
import os
import re
import sys
import textwrap

TOP = sys.argv[1] if len(sys.argv) > 1 else "."
USE = re.compile(r"(?m)^use Rattle\.(\w+)\.proofs\.([A-Z]\w*)\b")
USING = re.compile(r"crate::proofs::([A-Z]\w*)::")
FUNCTION = re.compile(r"\bfn (\w+)")
HEAD = "-- Used by "
NOBODY = f"{HEAD}nothing: worked examples."
WIDTH = 119
MOST_CRATES = 4
MOST_LINES = 4


def users():
    """Gives for each lemma file, as crate and name, the files and functions whose proofs import it."""
    found = collections.defaultdict(set)
    for path in glob.glob(f"{TOP}/crates/*/proofs/**/*.antt", recursive=True):
        crate, inside = os.path.relpath(path, f"{TOP}/crates").split("/proofs/")
        parts = inside.split("/")
        user = ("file", parts[0][: -len(".antt")]) if len(parts) == 1 else ("function", parts[-2])
        with open(path, encoding="utf-8") as file:
            for used in USE.finditer(file.read()):
                found[used[1], used[2]].add((crate, *user))
    for path in glob.glob(f"{TOP}/crates/*/src/**/*.rt", recursive=True):
        crate = os.path.relpath(path, f"{TOP}/crates").split("/")[0]
        with open(path, encoding="utf-8") as file:
            text = file.read()
        for used in USING.finditer(text):
            function = FUNCTION.search(text, used.end())
            if function:
                found[crate, used[1]].add((crate, "function", function[1]))
    return found


def joined(words):
    return words[0] if len(words) == 1 else ", ".join(words[:-1]) + " and " + words[-1]


def lines_of(crate, name, found):
    """Gives the comment lines; worked examples are used by nothing."""
    by = {it for it in found[crate, name] if it != (crate, "file", name)}
    items = [f"`{it}`" for it in sorted({who for of, kind, who in by if of == crate and kind == "function"})]
    items += sorted({who for of, kind, who in by if of == crate and kind == "file"})
    above = sorted({of for of, _, _ in by if of != crate and not of.endswith("_tests")})
    if len(above) > MOST_CRATES:
        items += [f"{len(above)} crates above"]
    elif above:
        items += [("crate " if len(above) == 1 else "crates ") + joined(above)]
    if not items:
        return [NOBODY]
    whole = textwrap.wrap(f"{HEAD}{joined(items)}.", WIDTH, subsequent_indent="-- ", break_on_hyphens=False)
    if len(whole) > MOST_LINES:
        return [f"{HEAD}{len(items)} functions, laws and files of this crate and of those above."]
    return whole


def main():
    found, changed, unused = users(), 0, []
    for path in sorted(glob.glob(f"{TOP}/crates/*/proofs/*.antt")):
        crate, name = os.path.relpath(path, f"{TOP}/crates")[: -len(".antt")].split("/proofs/")
        if name == "Lib":
            continue
        with open(path, encoding="utf-8") as file:
            lines = file.read().split("\n")
        end = next(at for at, it in enumerate(lines) if not it.startswith("--"))
        users_of = lines_of(crate, name, found)
        unused += [f"{crate}/{name}"] if users_of == [NOBODY] else []
        told = next((at for at, it in enumerate(lines[:end]) if it.startswith(HEAD)), end)
        head = lines[:told] + users_of
        if head != lines[:end]:
            changed += 1
            with open(path, "w", encoding="utf-8") as file:
                file.write("\n".join(head + lines[end:]))
    print(f"{changed} files changed; used by nobody, so worked examples or no longer needed: {', '.join(unused)}")


main()
