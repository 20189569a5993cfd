#!/usr/bin/env python3
"""Runs the built program's `keep` on real files, and reads the files by a small reader of its own.

    python3 tests/kept.py [PROGRAM] [--kills N] [--seed N]    kills the program at random moments
    python3 tests/kept.py [PROGRAM] --calls                   takes its system calls by `strace`

Build the program first: `rt run` in crates/weaver, or one call of ./weaver. With kills, runs are killed by `kill -9` at
random moments, until N of them were (300 if no N is given). After each run the file's commits are all those of the runs
that ended with 0, then the first ones of the killed run's transactions that pass, whole and in order; and a further
`keep` answers as if they were given to it. A kill keeps what the system has not written yet, so it doesn't show that
anything was synced. With --calls each commit is looked for among the system calls on the file: a write of the record
after the gate, a sync, a write of the byte 1 at the gate, a sync, and nothing on standard output before the last one:
of a new file, whose folder is synced first, and of a second run on it.
"""
import argparse
import os
import random
import re
import struct
import subprocess
import sys
import tempfile
import time

TOP = os.path.join(os.path.dirname(os.path.abspath(__file__)), "..")
HEADER = "weaver 1 1 1\n"


# A reader of the file's bytes and a graph, each in its own way


def payload_of(data, at):
    """Gives the payload of the record whose gate byte is at this place, or None if it isn't in the file."""
    if at + 5 > len(data) or data[at] != 1:
        return None
    size = struct.unpack(">I", data[at + 1 : at + 5])[0]
    if at + 5 + size >= len(data):
        return None
    return data[at + 5 : at + 5 + size]


class Graph:
    """Vertices with properties and edges, as far as the transactions of this script go."""

    def __init__(self):
        self.vertices = {}

    def run(self, lines):
        """Runs a transaction, and says whether it passes."""
        held = {v: (dict(props), dict(edges)) for v, (props, edges) in self.vertices.items()}
        for line in lines:
            word, v, *more = line.split(" ")
            if word == "create":
                if v in held:
                    return False
                held[v] = ({}, {})
            elif word == "get":
                continue
            elif v not in held:
                return False
            elif word == "delete":
                del held[v]
            elif word == "set":
                held[v][0][more[0]] = more[1]
            elif word == "unset":
                if more[0] not in held[v][0]:
                    return False
                del held[v][0][more[0]]
            elif word == "link":
                if more[0] in held[v][1]:
                    return False
                held[v][1][more[0]] = more[1]
            else:
                raise ValueError(line)
        self.vertices = held
        return True

    def says(self, v):
        """Gives what a report says of a vertex."""
        if v not in self.vertices:
            return "absent"
        props, edges = self.vertices[v]
        items = [f"{k}={props[k]}" for k in sorted(props)] + [f"{e}>{edges[e]}" for e in sorted(edges)]
        return " ".join(["record"] + items)


def commits_of(data):
    """Gives the commits of the file as pairs of a stamp and lines, and the place of the gate after them."""
    at, commits, graph = 0, [], Graph()
    while True:
        payload = payload_of(data, at)
        if payload is None or len(payload) < 17 or payload[0] not in (1, 2):
            return commits, at
        stamp = struct.unpack(">QQ", payload[1:17])
        text = payload[17:].decode("ascii", "replace")
        lines = text.split("\n")[:-1]
        if "".join(line + "\n" for line in lines) != text or not 1 <= stamp[0] <= len(commits) + 1 or stamp[1] < 1:
            return commits, at
        if commits and not commits[-1][0] < stamp:
            return commits, at
        if not graph.run(lines):
            return commits, at
        commits.append((stamp, lines))
        at += 5 + len(payload)


# Scripts


def transactions(draw, count):
    """Gives transactions of a few operations, some of which don't pass."""
    made = []
    for _ in range(count):
        v = f"v{draw.randrange(12)}"
        form = draw.randrange(5)
        if form == 0:
            made.append([f"create {v}", f"set {v} k x{draw.randrange(100)}"])
        elif form == 1:
            made.append([f"set {v} k y{draw.randrange(100)}", f"get {v}", f"link {v} e{draw.randrange(50)} w"])
        elif form == 2:
            made.append([f"delete {v}"])
        elif form == 3:
            made.append([f"unset {v} k"])
        else:
            made.append([f"get {v}"])
    return made


def script_of(made):
    text = [HEADER]
    for number, lines in enumerate(made, 1):
        text.append(f"tx t{number} 0 0\n" + "".join(line + "\n" for line in lines) + "end\n")
    return "".join(text)


def passing(graph, made):
    """Gives the transactions that pass one after another, and changes the graph."""
    return [lines for lines in made if graph.run(lines)]


def keep(program, path, made, stop=None):
    """Runs `keep`; with `stop` it is killed after that many seconds. Gives the status and what was printed."""
    child = subprocess.Popen([program, "keep", path], stdin=subprocess.PIPE, stdout=subprocess.PIPE)
    try:
        out, _ = child.communicate(script_of(made).encode(), timeout=stop)
    except subprocess.TimeoutExpired:
        child.kill()
        child.communicate()
        return None, b""
    return child.returncode, out


def fail(text):
    print(f"FAIL {text}")
    sys.exit(1)


def is_prefix(some, whole):
    return len(some) <= len(whole) and whole[: len(some)] == some


def try_kills(program, folder, kills, seed):
    draw = random.Random(seed)
    path = os.path.join(folder, "journal")
    known, runs, stopped, torn = [], 0, 0, 0
    began = time.monotonic()
    status, _ = keep(program, path, transactions(draw, 200))
    usual = time.monotonic() - began
    if status != 0:
        fail(f"status {status}")
    known = commits_of(open(path, "rb").read())[0]
    while stopped < kills and runs < 20 * kills:
        runs += 1
        graph = Graph()
        for _, lines in known:
            graph.run(lines)
        made = transactions(draw, 200)
        want = [lines for _, lines in known] + passing(graph, made)
        began = time.monotonic()
        status, _ = keep(program, path, made, draw.uniform(0, usual))
        data = open(path, "rb").read() if os.path.exists(path) else b""
        found = commits_of(data)[0]
        lines = [it for _, it in found]
        if not is_prefix([it for _, it in known], lines):
            fail(f"run {runs}: a commit that was there is gone")
        if not is_prefix(lines, want):
            fail(f"run {runs}: commits that were not given in this order")
        if status == 0 and lines != want:
            fail(f"run {runs}: status 0, and a commit is missing")
        if status not in (0, None):
            fail(f"run {runs}: status {status}")
        if status == 0:
            usual = (usual + time.monotonic() - began) / 2
        stopped += status is None
        torn += status is None and len(known) < len(found) < len(want)
        graph, number = Graph(), len(found) + 1
        for _, lines in found:
            graph.run(lines)
        status, out = keep(program, path, [["get v0", "get v1"]])
        answer = f"got 1 {graph.says('v0')}\ngot 2 {graph.says('v1')}\norder t1\nend\n"
        if status != 0 or out.decode() != f"report 1\ntx t1 {number}:0:1 committed {number}\n{answer}":
            fail(f"run {runs}: the next one says {out!r}, after {len(found)} commits")
        known = commits_of(open(path, "rb").read())[0]
        if len(known) > 3000:
            os.remove(path)
            known = []
    print(f"ok {runs} runs, {stopped} killed, {torn} of them between two commits; {len(known)} commits at the end")


# System calls


CALL = re.compile(r"^(?:\[pid +\d+\] )?(\w+)\((.*)\)\s+= (-?\d+)")


def try_calls(program, folder):
    path = os.path.join(folder, "journal")
    calls = 0
    for made in (
        [["create v", "set v k x"], ["create v"], ["get v"], ["set v k y", "link v e w"]],
        [["unset v k"], ["delete w"], ["get v"]],
    ):
        before = open(path, "rb").read() if os.path.exists(path) else b""
        found = traced(program, folder, path, made)
        # a recovery syncs, and closes the gate of a new file; the folder of the file is synced before that
        wanted = [("folder",), ("sync",)] + ([] if before else [("write", 0, b"\0"), ("sync",)])
        wanted += calls_of_commits(open(path, "rb").read(), max(len(before) - 1, 0)) + [("out",)]
        for at, (left, right) in enumerate(zip(found + [None], wanted + [None])):
            if left != right:
                fail(f"call {at}: found {left}, wanted {right}")
        if len(found) != len(wanted):
            fail("calls are missing")
        calls += len(found)
    print(f"ok {calls} calls of two runs, of {len(commits_of(open(path, 'rb').read())[0])} commits")


def calls_of_commits(data, gate):
    """Gives the calls that write the records of a journal from this gate on."""
    calls = []
    while data[gate] == 1:
        size = struct.unpack(">I", data[gate + 1 : gate + 5])[0]
        record = data[gate + 1 : gate + 5 + size] + b"\0"
        calls += [("write", gate + 1, record), ("sync",), ("write", gate, b"\1"), ("sync",)]
        gate += 5 + size
    return calls


def traced(program, folder, path, made):
    """Runs `keep` under `strace`, and gives its calls."""
    log = os.path.join(folder, "calls")
    with open(os.path.join(folder, "script"), "w", encoding="ascii") as script:
        script.write(script_of(made))
    with open(os.path.join(folder, "script"), encoding="ascii") as script:
        told = subprocess.run(
            ["strace", "-f", "-xx", "-s", "100000", "-o", log, program, "keep", path],
            stdin=script, stdout=subprocess.PIPE, check=False)
    if told.returncode != 0:
        fail(f"status {told.returncode}")
    with open(log, encoding="ascii", errors="replace") as calls:
        return list(calls_on(calls, path))


def calls_on(lines, path):
    """Gives the writes and syncs of the file, the sync of its folder, and writes to standard output, in their order."""
    names = {"".join(f"\\x{byte:02x}" for byte in name.encode()): what
             for name, what in ((path, "file"), (os.path.realpath(os.path.dirname(path)), "folder"))}
    opened, inside = {}, False
    for line in lines:
        call = CALL.match(re.sub(r"^\d+ +", "", line))
        if not call:
            continue
        name, words, result = call[1], call[2], int(call[3])
        if name in ("open", "openat") and result >= 0:
            opened[result] = next((what for hexed, what in names.items() if f'"{hexed}"' in words), None)
        elif name == "dup" or (name == "fcntl" and "F_DUPFD" in words):
            opened[result] = opened.get(int(words.split(",")[0]))
        elif name == "close":
            opened.pop(int(words), None)
        elif name in ("pwrite64", "write", "fdatasync", "fsync", "writev", "pwritev", "ftruncate"):
            handle = int(words.split(",")[0])
            what = opened.get(handle)
            if what == "file":
                if name in ("fdatasync", "fsync"):
                    yield ("sync",) if result == 0 else ("sync that failed",)
                elif name == "pwrite64":
                    text = re.match(r'\d+, "((?:\\x[0-9a-f]{2})*)", (\d+), (\d+)$', words)
                    wrote = bytes.fromhex(text[1].replace("\\x", ""))
                    yield ("write", int(text[3]), wrote[:result])
                else:
                    yield (name,)
            elif what == "folder":
                yield ("folder",) if name in ("fdatasync", "fsync") and result == 0 else (f"{name} of the folder",)
            elif handle == 1 and not inside:
                inside = True
                yield ("out",)


def main():
    parser = argparse.ArgumentParser()
    parser.add_argument("program", nargs="?", default=os.path.join(TOP, "crates/weaver/out/weaver"))
    parser.add_argument("--kills", type=int, default=300)
    parser.add_argument("--seed", type=int, default=7)
    parser.add_argument("--calls", action="store_true")
    asked = parser.parse_args()
    if not os.access(asked.program, os.X_OK):
        print(f"{asked.program} is missing: build it first", file=sys.stderr)
        sys.exit(70)
    with tempfile.TemporaryDirectory() as folder:
        if asked.calls:
            try_calls(asked.program, folder)
        else:
            try_kills(asked.program, folder, asked.kills, asked.seed)


if __name__ == "__main__":
    main()
