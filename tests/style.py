#!/usr/bin/env python3
"""Lists places that break the rules of layout: lines of definitions and contracts over 120 columns, statements and
clauses over 500 characters, public lemmas without a comment line, and names that a file imports from a file of
definitions that doesn't declare them.

Run it by hand at the top of the repository, or give the top as the argument. It proves nothing and takes seconds; the
last list is what to look at first after words were renamed by a script.
"""
import os
import re
import sys

TOP = sys.argv[1] if len(sys.argv) > 1 else "."
OF_A_FUNCTION = ("Answers.antt", "Invariants.antt", "Proof.antt")
BINDERS = r"(?:\s*(?:\([^)]*\)|\{[^}]*\}))*"
STATEMENT = re.compile(r"^(\s*)(?:pub |abbrev |unfoldable )*(?:record |data )?([^\s:(){}=]+)" + BINDERS + r"\s+:\s")
LEMMA = re.compile(r"^\s*pub ([^\s:(){}=]+)" + BINDERS + r"\s*:\s")
DECLARED = re.compile(r"^\s*(?:pub |abbrev |unfoldable )*(?:record |data )?([^\s:(){}]+)")
IMPORT = re.compile(r"use Rattle\.(\w+)\.specs\.([A-Z]\w*)\.\{([^}]*)\}")


def lines_of(path):
    with open(path, encoding="utf-8") as file:
        return file.read().split("\n")


def files():
    for at, folders, names in os.walk(f"{TOP}/crates"):
        folders[:] = sorted(it for it in folders if it != "out")
        for name in sorted(names):
            if name.endswith((".rt", ".antt")):
                yield f"{at}/{name}", name


def is_comment(line):
    return line.lstrip().startswith(("--", "//"))


def long_lines(path, lines):
    """A `use` line is as long as its names, and a text of a test as long as the text."""
    for number, line in enumerate(lines, 1):
        if len(line) > 120 and "use Rattle" not in line and '"' not in line:
            yield f"{path}:{number}: {len(line)} columns"


def long_statements(path, lines):
    for at, line in enumerate(lines):
        begins = STATEMENT.match(line)
        if not begins or is_comment(line) or line.lstrip().startswith(("use ", "mod ", "pub mod ", "module ", "let ")):
            continue
        text, depth = line.strip(), len(begins[1])
        for more in lines[at + 1 :]:
            if not more.strip() or len(more) - len(more.lstrip()) <= depth or re.match(r"^\s*(pub |abbrev )?\S+ : ", more):
                break
            text += " " + more.strip()
        text = text.split(" where")[0]
        if len(text) > 500:
            yield f"{path}:{at + 1}: {len(text)} characters, {begins[2]}"


def long_clauses(path, lines):
    """A clause is what stands in braces after `requires` or `ensures`."""
    text = "\n".join(it for it in lines if not is_comment(it))
    for begins in re.finditer(r"\b(?:requires|ensures)(?: \w+)? \{", text):
        depth, at = 1, begins.end()
        while depth and at < len(text):
            depth += {"{": 1, "}": -1}.get(text[at], 0)
            at += 1
        size = len(re.sub(r"\s+", " ", text[begins.end() : at - 1]).strip())
        if size > 500:
            function = re.findall(r"\bfn (\w+)", text[: begins.start()])
            yield f"{path}: a clause of {function[-1] if function else '?'} has {size} characters"


def bare_lemmas(path, lines):
    inside = None
    for at, line in enumerate(lines):
        depth = len(line) - len(line.lstrip())
        if line.strip() and inside is not None and depth <= inside:
            inside = None
        if re.match(r"^\s*(pub )?(record|data) ", line):
            inside = depth
        found = LEMMA.match(line)
        if found and inside is None and found[1] not in ("mod", "use", "module") and not is_comment(lines[at - 1]):
            yield f"{path}:{at + 1}: {found[1]}"


def declared(path, known={}):
    if path not in known:
        known[path] = set()
        for line in lines_of(path):
            passed_on = re.match(r"^pub use .*\{([^}]*)\}", line)
            if passed_on:
                known[path] |= {it.strip().split(" as ")[-1] for it in passed_on[1].split(",")}
            elif not is_comment(line) and DECLARED.match(line):
                known[path].add(DECLARED.match(line)[1])
    return known[path]


def unknown_imports(path, lines):
    for crate, module, names in IMPORT.findall("\n".join(lines)):
        file = f"{TOP}/crates/{crate}/specs/{module}.antt"
        if os.path.isfile(file):
            for name in names.split(","):
                word = name.strip().split(" as ")[0]
                if word and word not in declared(file):
                    yield f"{path}: {crate}/{module} has no {word}"


found = {"lines over 120 columns": [], "statements over 500 characters": [], "public lemmas without a comment line": [], "unknown imports": []}
kinds = list(found)
for path, name in files():
    lines, inside = lines_of(path), os.path.relpath(path, f"{TOP}/crates").split("/")[1]
    if inside in ("specs", "src"):
        found[kinds[0]] += long_lines(path, lines)
    if inside in ("specs", "proofs"):
        found[kinds[1]] += long_statements(path, lines)
    if inside == "src":
        found[kinds[1]] += long_clauses(path, lines)
    if inside == "proofs" and name not in OF_A_FUNCTION:
        found[kinds[2]] += bare_lemmas(path, lines)
    found[kinds[3]] += unknown_imports(path, lines)
for kind, places in found.items():
    print(f"{kind}: {len(places)}")
    for place in places:
        print(f"  {place}")
