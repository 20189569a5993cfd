#!/usr/bin/env python3
"""Compares the judge of what `run` promises with a slow one, by definition, on small random reports.

    promises.py PROGRAM [COUNT] [SEED]

PROGRAM is the program of crates/promise_tests. Most reports are drawn so that they are right; half of them are then
spoiled in a way that may leave them right: a pair or its last line less, two places of the order or two commit numbers
exchanged, a phase begun elsewhere, a refusal after another number of commits, a reply that isn't final, an answer of a
step. Those that aren't right any more aren't compared. The slow judge looks at each two requests, finds precedence by a
closure, takes the printed order turn by turn, and replays the order once for each place.
"""
import itertools, random, subprocess, sys

NUMBERS = {"x": None, "2": 2, "7": 7}


def apply(graph, op, version):
    """The graph after an operation, or the reason of its refusal. A vertex is its properties and its edges; an edge has
    its target and its tags."""
    v = op[1]
    state = graph.get(v)
    if op[0] == "create":
        if state is not None:
            return None, "exists"
        return {**graph, v: ({}, {})}, None
    if op[0] == "get":
        return graph, None
    if state is None:
        return None, "missing"
    props, edges = dict(state[0]), dict(state[1])
    if op[0] == "delete":
        return {k: s for k, s in graph.items() if k != v}, None
    if op[0] == "set":
        props[op[2]] = op[3]
    elif op[0] == "link":
        if version == 2 and op[3] not in graph:
            return None, "no_target"
        if op[2] in edges:
            return None, "edge_exists"
        edges[op[2]] = (op[3], {})
    elif op[0] == "tag":
        if op[2] not in edges:
            return None, "no_edge"
        edges[op[2]] = (edges[op[2]][0], {**edges[op[2]][1], op[3]: op[4]})
    elif op[0] == "unlink":
        if op[2] not in edges:
            return None, "no_edge"
        del edges[op[2]]
    return {**graph, v: (props, edges)}, None


def run(graph, ops, version):
    """The graph and the answers of `get`s, or the refused operation and its reason."""
    gots = []
    for number, op in enumerate(ops, 1):
        if op[0] == "get":
            gots.append((number, show(graph.get(op[1]))))
        after, reason = apply(graph, op, version)
        if reason:
            return None, (number, reason)
        graph = after
    return (graph, gots), None


def named(request, version):
    """The vertices that a transaction names."""
    return {op[1] for op in request.ops} | {op[3] for op in request.ops if op[0] == "link" and version == 2}


def show(state):
    if state is None:
        return "absent"
    words = ["record"] + [f"{k}={x}" for k, x in sorted(state[0].items())]
    return " ".join(words + [f"{e}>{w}" + "".join(f",{k}={x}" for k, x in sorted(tags.items())) for e, (w, tags) in sorted(state[1].items())])


def passing(program):
    """Which tags an edge has to have for the program."""
    if program[0] == "price":
        return lambda tags: NUMBERS.get(tags.get(program[3])) is not None
    if "where" in program:
        return lambda tags: tags.get(program[-2]) == program[-1]
    return lambda tags: True


def targets(graph, program, v):
    return {w for w, tags in graph[v][1].values() if passing(program)(tags)} if v in graph else set()


def visits(graph, program):
    """The list of visits: levels in turn, each in byte order."""
    if program[0] == "show":
        return [program[1]]
    target = program[2] if program[0] in ("reach", "path") else None
    bound = {"around": 2, "path": 3}.get(program[0])
    bound = 100 if bound is None else int(program[bound])
    found, level = [], [program[1]]
    for _ in range(bound + 1):
        for v in level:
            found.append(v)
            if v == target:
                return found
        level = sorted({w for v in level for w in targets(graph, program, v)} - set(found))
    return found


def walks(graph, program, most):
    """The walks without a repeated vertex from the first vertex, with their prices."""
    found, level = [], [([program[1]], 0)] if program[1] in graph else []
    for _ in range(most + 1):
        found += level
        level = [
            (walk + [w], price + (NUMBERS[tags[program[3]]] if program[0] == "price" else 0))
            for walk, price in level
            for w, tags in graph[walk[-1]][1].values()
            if passing(program)(tags) and w in graph and w not in walk
        ]
    return found


def answer(graph, program):
    if program[0] == "show":
        return show(graph.get(program[1]))
    there = [v for v in visits(graph, program) if v in graph]
    if program[0] == "reach":
        return "yes" if program[2] in there else "no"
    if program[0] == "around":
        return " ".join(["found"] + sorted(there))
    if program[0] == "path":
        ends = [walk for walk, _ in walks(graph, program, min(int(program[3]), 10)) if walk[-1] == program[2]]
        return " ".join(["path"] + min(ends, key=lambda walk: (len(walk), walk))) if ends else "none"
    found = walks(graph, program, 10)
    least = {walk[-1]: min(p for w, p in found if w[-1] == walk[-1]) for walk, _ in found}
    ends = [(price, walk[::-1]) for walk, price in found if walk[-1] == program[2]]
    first = f"{min(ends)[0]} " + " ".join(min(ends)[1][::-1]) if ends else "none"
    return " ".join([f"price {first} ;"] + [f"{v}={d}" for v, d in sorted(least.items())])


class Request:
    pass


def before(a, b):
    return a is not None and b is not None and a != b and all(x <= y for x, y in zip(a, b))


def draw(rng):
    """A script and a report that may be right."""
    case = Request()
    case.gates = rng.choice([1, 2, 2, 3, 3, 8])
    case.version = rng.choice([1, 2])
    n = rng.randint(1, rng.choice([4, 6, 9]))
    sessions = rng.randint(1, 4)
    names = ["a", "b", "c"][: rng.randint(1, 3)]
    case.requests = []
    makes = rng.random() < 0.8
    for i in range(n):
        r = Request()
        r.session = rng.randrange(sessions)
        r.gate = rng.randrange(case.gates)
        r.program = None
        r.ops = []
        if i == 0 and makes:
            r.ops = [("create", v) for v in names] + [("link", "a", "e", names[-1]), ("tag", "a", "e", "k", rng.choice("x27"))]
            if len(names) == 3:
                r.ops += [("link", "a", "f", "b"), ("link", "b", "e", "c"), ("tag", "b", "e", "k", rng.choice("x27"))]
        elif rng.random() < 0.3:
            kind, v, w, k = rng.choice(["show", "reach", "around", "path", "price"]), rng.choice(names), rng.choice(names), str(rng.randint(0, 2))
            r.program = {"show": ("show", v), "reach": ("reach", v, w), "around": ("around", v, k), "path": ("path", v, w, k), "price": ("price", v, w, "k")}[kind]
            if kind in ("reach", "around", "path") and rng.random() < 0.3:
                r.program += ("where", "k", rng.choice("x27"))
        else:
            for _ in range(rng.choice([1, 1, 2, 3])):
                kind = rng.choice(["create", "get", "get", "get", "set", "set", "link", "delete", "unlink", "tag"])
                v = rng.choice(names)
                r.ops.append({"create": ("create", v), "get": ("get", v), "set": ("set", v, "k", "x"), "link": ("link", v, rng.choice("ef"), rng.choice(names)), "delete": ("delete", v), "unlink": ("unlink", v, "e"), "tag": ("tag", v, rng.choice("ef"), "k", rng.choice("x27"))}[kind])
        case.requests.append(r)
    case.phases = sorted(rng.randint(0, n) for _ in range(rng.choice([0, 0, 1, 1, 2])))
    # the order in which requests begin keeps that of sessions
    turns, left = [], list(range(n))
    while left:
        firsts = [i for i in left if not any(j < i and case.requests[j].session == case.requests[i].session for j in left)]
        later = rng.random() < 0.3
        i = rng.choice(firsts) if later else min(firsts)
        turns.append(i)
        left.remove(i)
    clocks = [[0] * case.gates for _ in range(case.gates)]
    last, stopped = {}, set()
    hear = rng.choice([0.0, 0.1, 0.3, 0.7])
    for i in turns:
        r = case.requests[i]
        r.stamp, r.state = None, ("unbegun",)
        if r.session in stopped or rng.random() < 0.04:
            stopped.add(r.session)
            continue
        for g in range(case.gates):
            if rng.random() < hear:
                clocks[r.gate] = [max(x, y) for x, y in zip(clocks[r.gate], clocks[g])]
        if r.session in last:
            clocks[r.gate] = [max(x, y) for x, y in zip(clocks[r.gate], last[r.session])]
        clocks[r.gate][r.gate] += 1
        r.stamp = list(clocks[r.gate])
        last[r.session] = r.stamp
    # one order that keeps stamps
    begun = [i for i in turns if case.requests[i].stamp]
    line, left = [], list(begun)
    while left:
        free = [i for i in left if not any(before(case.requests[j].stamp, case.requests[i].stamp) for j in left)]
        i = rng.choice(free)
        line.append(i)
        left.remove(i)
    graph, commits, at = {}, [], {}
    for i in line:
        r = case.requests[i]
        if r.program is not None:
            if rng.random() < 0.15:
                r.state = ("running",)
                at[i] = set(names)
            else:
                r.state = ("done", answer(graph, r.program))
                at[i] = set(visits(graph, r.program))
            continue
        at[i] = named(r, case.version)
        chance = rng.random()
        if chance < 0.06:
            r.state = ("begun",)
            continue
        if chance < 0.16:
            r.state = ("aborted",)
            continue
        passed, refused = run(graph, r.ops, case.version)
        if refused:
            r.state = ("refused", refused[0], refused[1], len(commits))
        else:
            graph = passed[0]
            commits.append(i)
            r.state = ("committed", len(commits), passed[1])
    if rng.random() < 0.3:
        numbers = list(range(1, len(commits) + 1))
        rng.shuffle(numbers)
        for i, number in zip(commits, numbers):
            case.requests[i].state = ("committed", number, case.requests[i].state[2])
    joins = rng.choice([0.0, 0.5, 0.9, 1.0])
    case.pairs = []
    for k, i in enumerate(line):
        if case.requests[i].state[0] != "committed":
            continue
        for j in line[k + 1 :]:
            s, r = case.requests[i], case.requests[j]
            meet = sorted(at[i] & at[j])
            if r.state[0] not in ("committed", "done", "running") or not meet or before(s.stamp, r.stamp) or before(r.stamp, s.stamp):
                continue
            if rng.random() < joins:
                case.pairs.append((rng.choice(meet), i, j))
    rng.shuffle(case.pairs)
    lead = closure(case)
    for i in line:
        r = case.requests[i]
        if r.state[0] == "aborted":
            newer = [(v, j) for j in commits for v in sorted(at[i] & at[j]) if (i, j) in lead and case.requests[j].session != r.session]
            r.state = ("conflict", *rng.choice(newer)) if newer else ("begun",)
    listed = [i for i in line if case.requests[i].state[0] in ("committed", "done")]
    case.order = listed
    if rng.random() < 0.5:
        case.order = printed(case, lead)
    case.answers = ["ok"] * rng.choice([0, 0, 0, 0, 1, 2])
    if rng.random() < 0.5:
        for _ in range(rng.choice([1, 1, 2])):
            spoil(rng, case)
    return case


def spoil(rng, case):
    """A change that may leave the report right."""
    kind = rng.choice(["pair", "last_pair", "order", "numbers", "phase", "refusal", "reply", "answer"])
    committed = [r for r in case.requests if r.state[0] == "committed"]
    refused = [r for r in case.requests if r.state[0] == "refused"]
    if kind in ("pair", "last_pair") and case.pairs:
        case.pairs.pop(-1 if kind == "last_pair" else rng.randrange(len(case.pairs)))
    elif kind == "order" and len(case.order) > 1:
        k = rng.randrange(len(case.order) - 1)
        case.order[k : k + 2] = case.order[k : k + 2][::-1]
    elif kind == "numbers" and len(committed) > 1:
        a, b = rng.sample(committed, 2)
        a.state, b.state = ("committed", b.state[1], a.state[2]), ("committed", a.state[1], b.state[2])
    elif kind == "phase":
        case.phases = sorted(case.phases[1:] + [rng.randint(0, len(case.requests))])
    elif kind == "refusal" and refused:
        r = rng.choice(refused)
        r.state = r.state[:3] + (rng.randint(0, len(committed)),)
    elif kind == "reply":
        r = rng.choice(case.requests)
        i = case.requests.index(r)
        r.state = ("running",) if r.program is not None else ("begun",)
        case.order = [k for k in case.order if k != i]
        if r.stamp is None:
            r.state = ("unbegun",)
    elif kind == "answer":
        case.answers = ["ok"]


def texts(case):
    lines = [f"weaver {case.version} {case.gates} 1"]
    phases = list(case.phases)
    for i, r in enumerate(case.requests):
        while phases and phases[0] <= i:
            lines.append("phase")
            phases.pop(0)
        if r.program is not None:
            lines.append(f"prog r{i} {r.session} {r.gate} " + " ".join(map(str, r.program)))
        else:
            lines.append(f"tx r{i} {r.session} {r.gate}")
            lines += [" ".join(op) for op in r.ops] + ["end"]
    lines += ["phase"] * len(phases)
    lines.append("report 1")
    for i, r in enumerate(case.requests):
        kind = "tx" if r.program is None else "prog"
        if r.stamp is None:
            lines.append(f"{kind} r{i} unbegun")
            continue
        stamp = f"0:{r.gate}:" + ",".join(map(str, r.stamp))
        s = r.state
        if s[0] == "committed":
            lines.append(f"tx r{i} {stamp} committed {s[1]}")
            lines += [f"got {k} {state}" for k, state in s[2]]
        elif s[0] == "refused":
            lines.append(f"tx r{i} {stamp} refused {s[1]} {s[2]} at {s[3]}")
        elif s[0] == "conflict":
            lines.append(f"tx r{i} {stamp} conflict {s[1]} r{s[2]}")
        elif s[0] == "done":
            lines.append(f"prog r{i} {stamp} done {s[1]}")
        else:
            lines.append(f"{kind} r{i} {stamp} {s[0]}")
    lines += [f"settled {v} r{i} r{j}" for v, i, j in case.pairs]
    lines.append(" ".join(["order"] + [f"r{i}" for i in case.order]))
    lines += [f"did {k} {a}" for k, a in enumerate(case.answers, 1)]
    return "\n".join(lines + ["end"]) + "\n"


# The slow judge


def closure(case):
    n = len(case.requests)
    lead = {(i, j) for i in range(n) for j in range(n) if before(case.requests[i].stamp, case.requests[j].stamp)}
    lead |= {(i, j) for v, i, j in case.pairs if case.requests[i].stamp and case.requests[j].stamp}
    for k, i, j in itertools.product(range(n), range(n), range(n)):
        if (i, k) in lead and (k, j) in lead:
            lead.add((i, j))
    return lead


def printed(case, lead):
    left = [i for i, r in enumerate(case.requests) if r.stamp]
    taken = []
    while left:
        free = [i for i in left if not any((j, i) in lead for j in left)]
        if not free:
            return None
        i = min(free, key=lambda k: case.requests[k].gate)
        taken.append(i)
        left.remove(i)
    return [i for i in taken if case.requests[i].state[0] in ("committed", "done")]


def vertices_in_order(case):
    graph, at = {}, {}
    for i in case.order:
        r = case.requests[i]
        if r.program is not None:
            at[i] = set(visits(graph, r.program))
        else:
            at[i] = named(r, case.version)
            passed, refused = run(graph, r.ops, case.version)
            if passed:
                graph = passed[0]
    return at


def phase(case, i):
    return sum(1 for before_it in case.phases if before_it <= i)


def parts(case, lead, i):
    """Which parts of the clause on phases the reply of request i breaks, and with which requests."""
    requests = case.requests
    mine, state, found = phase(case, i), requests[i].state, set()
    for j, other in enumerate(requests):
        theirs = phase(case, j)
        if theirs > mine and (j, i) in lead:
            found.add(("precedence", j))
        if state[0] == "conflict" and state[2] == j and theirs != mine:
            found.add(("conflict", j))
        if theirs < mine and state[0] == "committed" and other.state[0] == "committed" and other.state[1] >= state[1]:
            found.add(("number", j))
        if theirs < mine and state[0] == "committed" and other.state[0] == "refused" and other.state[3] >= state[1]:
            found.add(("earlier_refusal", j))
        if theirs < mine and state[0] == "refused" and other.state[0] == "committed" and other.state[1] > state[3]:
            found.add(("refusal", j))
    return found


def judged(case):
    """What each line may be: a set of texts."""
    lead = closure(case)
    wanted = printed(case, lead)
    place = next((k for k, i in enumerate(case.order, 1) if k > len(wanted) or wanted[k - 1] != i), None)
    if place is None and len(case.order) < len(wanted):
        place = len(case.order) + 1
    lines = [{f"order {place or 'kept'}"}]
    at = vertices_in_order(case)
    lines.append({"meetings kept"})
    for k, i in enumerate(case.order, 1):
        bad = {
            (j, v)
            for j in case.order[: k - 1]
            for v in at[i] & at[j]
            if (case.requests[i].program is None or case.requests[j].program is None) and (i, j) not in lead and (j, i) not in lead
        }
        if bad:
            lines[1] = {f"meetings {k} r{j} {v}" for j, v in bad}
            break
    lines.append({"phases kept"})
    for i in range(len(case.requests)):
        bad = parts(case, lead, i)
        if bad:
            lines[2] = {f"phases {i + 1} {part} r{j}" for part, j in bad}
            break
    final = next((i + 1 for i, r in enumerate(case.requests) if r.state[0] in ("unbegun", "begun", "running")), None)
    lines.append({f"replies {final or 'kept'}"})
    lines.append({"steps 1" if case.answers else "steps kept"})
    return lines


def key_of(line):
    """Which promise a line speaks of, and whether it is kept."""
    words = line.split()
    if words[1] == "kept":
        return f"{words[0]} kept"
    return " ".join([words[0], "broken"] + (words[2:3] if words[0] == "phases" else []))


def answers(program, cases):
    """What the program says of each case: a word, or five lines."""
    text = "".join(f"% {k}\n{texts(case)}" for k, case in enumerate(cases))
    ended = subprocess.run([program], input=text.encode(), capture_output=True)
    if ended.returncode != 0:
        sys.exit(f"status {ended.returncode}:\n{text}")
    parts = ended.stdout.decode().split("% ")[1:]
    assert [int(part.split("\n")[0]) for part in parts] == list(range(len(cases)))
    return [part.split("\n")[1:-1] for part in parts]


def main():
    program = sys.argv[1]
    count = int(sys.argv[2]) if len(sys.argv) > 2 else 3000
    rng = random.Random(int(sys.argv[3]) if len(sys.argv) > 3 else 1)
    right = wrong = drawn = 0
    seen = {}
    while right < count and drawn < 40 * count:
        cases = [draw(rng) for _ in range(100)]
        drawn += len(cases)
        for case, lines in zip(cases, answers(program, cases)):
            if lines == ["not right"]:
                continue
            if len(lines) != 5:
                sys.exit(f"{lines}:\n{texts(case)}")
            right += 1
            for line, may_be in zip(lines, judged(case)):
                key = key_of(line)
                seen[key] = seen.get(key, 0) + 1
                if line not in may_be:
                    wrong += 1
                    print(f"judge: {line}\nslow: {sorted(may_be)}\n{texts(case)}")
        if wrong > 3:
            break
    print(f"{right} right reports of {drawn} drawn, {wrong} differences")
    print(", ".join(f"{k}: {v}" for k, v in sorted(seen.items())))
    return 1 if wrong else 0


if __name__ == "__main__":
    sys.exit(main())
