#!/usr/bin/env python3
"""Says whether docs/follows.svg, which README shows, is byte for byte what `explain picture` has to write of
examples/follows.weave and its report: the output of the case `docs/follows.svg` in crates/worked_tests/data/explain.cases,
which the gate compares with the program. With `write` it is made so.
"""
import os
import sys

TOP = os.path.dirname(os.path.dirname(os.path.abspath(__file__)))
STORED = f"{TOP}/docs/follows.svg"


def wanted():
    with open(f"{TOP}/crates/worked_tests/data/explain.cases", encoding="utf-8", newline="") as file:
        text = file.read().split("\ndocs/follows.svg.\n")[1]
    asked, written = text.split("\n--- done\n")[:2]
    inputs = "".join(open(f"{TOP}/examples/follows.{end}", encoding="utf-8").read() for end in ("weave", "report"))
    if asked.split("\n", 1)[1] + "\n" != inputs:
        sys.exit("the case isn't that of examples/follows.weave and its report")
    return written.split("\n---\n")[0] + "\n"


picture = wanted()
if sys.argv[1:] == ["write"]:
    with open(STORED, "w", encoding="utf-8", newline="") as file:
        file.write(picture)
with open(STORED, encoding="utf-8", newline="") as file:
    if file.read() != picture:
        sys.exit("docs/follows.svg isn't what `explain picture` writes")
print("docs/follows.svg is what `explain picture` writes")
