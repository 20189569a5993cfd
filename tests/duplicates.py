#!/usr/bin/env python3
"""Lists what is said twice: words that two files of definitions define, or that have one body; and lemmas that stand twice.

Run it by hand at the top of the repository, or give the top as the argument. It reads declarations by their layout, so a
line of its list is a place to look, not a verdict: two words of one body may mean two things, and a short lemma may be
dearer to share than to repeat. Type parameters are left out, since one file may give them in the head of a module.
Fields of records, types, names that a file gives to terms or facts of its own parameters (without arguments, inside a
module or after `where`), and declarations that are the same but for names are listed apart.
"""
import collections
import os
import re
import sys

TOP = sys.argv[1] if len(sys.argv) > 1 else "."
LEAST = 60
DECLARED = re.compile(r"^(\s*)(?:pub |abbrev |unfoldable |opaque )*(?:record |data )?([^\s:(){}]+)\s*(?:\([^)]*\)\s*|\{[^}]*\}\s*)*:\s")
WORD = re.compile(r"^ *(?:pub )?(abbrev|unfoldable|record|data) (?:pub )?([^\s:(){}]+)", re.MULTILINE)
PLAIN_WORD = re.compile(r"^(?:pub )?(?!use |mod |module |pub )([^\s:(){}]+)(?: *(?:\([^)]*\)|\{[^}]*\}))* : ", re.MULTILINE)
RECORD = re.compile(r"^(\s*)(?:pub )?(?:record|data) ([^\s:(){}]+)")
FIRST_WORDS = re.compile(r"^\s*(?:pub |abbrev |unfoldable )*")
TYPE_PARAMETERS = re.compile(r"\{[A-Z](?: [A-Z])* : Type 0\} (?:→ )?")
BINDERS = (re.compile(r"λ ([^.]*)\."), re.compile(r"[({]([\w' ]+) :"), re.compile(r"@((?: [^=@]*?)) = "))
NAME = re.compile(r"(?<![.\w'])[A-Za-z_][\w']*")


def declarations(path):
    """Gives the name, the text and the layout of each declaration at the top of the file, in a module or after `where`."""
    found, last = [], None
    with open(path, encoding="utf-8") as file:
        for line in file:
            if not line.strip() or line.strip().startswith("--"):
                continue
            if re.match(r"\s*(use|module|mod|pub mod|pub use|where)\b", line):
                last = None
                continue
            begins = DECLARED.match(line) or RECORD.match(line)
            if begins and len(begins[1]) <= 8:
                is_local = bool(begins[1])
                last = (begins[2], [FIRST_WORDS.sub("", line).strip()], is_local)
                found.append(last)
            elif last:
                last[1].append(line.strip())
    return [(name, TYPE_PARAMETERS.sub("", " ".join(text)), is_local) for name, text, is_local in found]


def without_names(name, text):
    """Gives the text with the declared name and the bound names numbered in their order."""
    text = re.sub(rf"(?<![\w'\-]){re.escape(name)}(?![\w'\-])", "@", text)
    bound = set("ABCEXYZ")
    for binder in BINDERS:
        for group in binder.findall(text):
            bound |= set(re.findall(r"(?<![\w.])[a-z_][\w']*", group))
    numbers = {}
    return NAME.sub(lambda it: numbers.setdefault(it[0], f"x{len(numbers)}") if it[0] in bound else it[0], text)


def files(part):
    for at, folders, names in os.walk(f"{TOP}/crates"):
        folders[:] = sorted(it for it in folders if it != "out")
        if f"/{part}" in at:
            yield from (f"{at}/{name}" for name in sorted(names) if name.endswith(".antt"))


def show(what, found, shown=lambda key: key):
    again = {key: places for key, places in found.items() if len(places) > 1}
    print(f"{what}: {len(again)}")
    for key, places in sorted(again.items(), key=lambda it: (-len(it[0][-1]), it[0])):
        print(f"  {shown(key)}: {', '.join(sorted(places))}")


def length_and_name(key):
    return f"{len(key[1])} characters, {key[0]}"


words, bodies, lemmas, names, alike = (collections.defaultdict(set) for _ in range(5))
for path in files("specs"):
    place = os.path.relpath(path, f"{TOP}/crates")
    with open(path, encoding="utf-8") as file:
        text = file.read()
    for kind, word in [*WORD.findall(text), *(("", it) for it in PLAIN_WORD.findall(text))]:
        if word[0].isupper() or kind not in ("record", "data"):
            words[word].add(place)
    for name, text, _ in declarations(path):
        if " = " in text and len(text) >= LEAST:
            bodies[(without_names(name, text),)].add(f"{place} `{name}`")
for path in files("proofs"):
    place = os.path.relpath(path, f"{TOP}/crates")
    for name, text, is_local in declarations(path):
        if len(text) > LEAST and "goal." not in text:
            is_name = " = " not in text or " Type 0 " in f"{text.split(' = ')[0]} " or (is_local and f" {name} = " in text)
            (names if is_name else lemmas)[name, text].add(place)
            if not is_name:
                alike[(without_names(name, text),)].add(f"{place} `{name}`")
alike = {key: places for key, places in alike.items() if len({it.split(" ")[0] for it in places}) > 1}

show("words of definitions that more than one file defines", words)
show("words of definitions that have one body", bodies, lambda key: f"{len(key[0])} characters")
show("lemmas that more than one file proves letter for letter", lemmas, length_and_name)
show("names of parameters' terms, types and fields that more than one file has letter for letter", names, length_and_name)
show("lemmas of two files that are the same but for names", alike, lambda key: f"{len(key[0])} characters")
