#!/usr/bin/env python3
"""Runs the built program on the examples of the causes in docs/FORMATS.md (causes.txt), and reports what differs.

    python3 tests/causes.py crates/weaver/out/weaver

The program is the one that `./weaver` builds, not the launcher. The status is 0 if all agree."""
import json
import os
import subprocess
import sys

here = os.path.dirname(os.path.abspath(__file__))


def input_of(case):
    if 'input' in case:
        return case['input'].encode()
    parts = []
    for text, times in case['pieces']:
        if '{n}' in text:
            parts += [text.replace('{n}', str(n)) for n in range(1, times + 1)]
        else:
            parts.append(text * times)
    return ''.join(parts).encode()


def by_program(program, case):
    done = subprocess.run([program, case['command']], input=input_of(case), capture_output=True, timeout=120)
    return done.returncode, done.stdout.decode(errors='replace')


def main():
    if len(sys.argv) < 2:
        sys.exit(__doc__)
    path = os.path.join(here, 'causes.txt')
    cases = [json.loads(line) for line in open(path) if line.strip() and not line.startswith('#')]
    wrong = 0
    for number, case in enumerate(cases, 1):
        found = by_program(sys.argv[1], case)
        if found != (case['status'], case['output']):
            wrong += 1
            print(f"case {number} ({case['table']}, {case['command']}, {case['example']}): "
                  f"wanted {(case['status'], case['output'])}, found {found}")
    print(f'{len(cases)} cases, {wrong} mismatches')
    sys.exit(wrong > 0)


main()
