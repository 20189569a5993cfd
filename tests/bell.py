#!/usr/bin/env python3
"""Goes through every interleaving of a few threads that enter and leave a lock: can one of them sleep for good?

Run it by hand at the top of the repository, or give the top as the argument; it takes half a minute. It reads what a
thread does to the lock's word and the bell, in which order, from crates/chronicle/src. It prints the table of
docs/inside/CHRONICLE.md for that order and three others, and a shortest way into such a sleep for each that has one.
It fails if the code's own has one, or if the code does anything else to the word or the bell.
"""
from collections import namedtuple
import re
import sys

CODE = f"{sys.argv[1] if len(sys.argv) > 1 else '.'}/crates/chronicle/src"
# Each function's file, how many of its steps must come first, as they are here, and the text of each step.
FUNCTIONS = {
    "enter": ("enter.rt", 3, {"try": "let found = shared.compare_exchange::<Enters>(&mut seat, WORD, FREE, TAKEN);",
                              "end": "self.bell.end(rung);", "wait": "rung = Some(self.bell.wait(rt, rung));"}),
    "wait": ("bell.rt", 2, {"sleep": "Some(rung) => rung.sleep(rt, &self.rings)", "count": "self.waiting.fetch_add(1, ",
                            "read": "Reading::of(&self.rings)", "take back": ".take_back(&self.called)"}),
    "of": ("rung.rt", 1, {"read": "rings.load("}), "take_back": ("rung.rt", 1, {"take back": "called.store(0, "}),
    "sleep": ("rung.rt", 1, {"sleep": "rings.park(rt, (self.rings % 4_294_967_296) as u32);"}),
    "end": ("bell.rt", 1, {"end": "if rung.is_some() { self.waiting.fetch_sub(1, Ordering::SeqCst); }"}),
    "leave": ("held.rt", 0, {"free": "shared.store::<Leaves>(&mut seat, WORD, FREE)", "ring": "bell.ring(&seat)"}),
    "ring": ("bell.rt", 2, {"look": "if self.waiting.load(Ordering::SeqCst) > 0",
                            "call": "&& self.called.swap(1, Ordering::SeqCst) == 0 {",
                            "raise": "self.rings.fetch_add(1, ", "wake": "self.rings.wake_one()"}),
}
# All that is done to what threads share, but for the slot of the machine, which is the holder's alone.
ACCESS = re.compile(r"\b(?:(?:shared|bell|waiting|called|rings)\.(?!exchange\b)|rung\.sleep|Reading::of|take_back\(&)")
# A thread is its next step, how many holds it still makes, and `rung`: None, or if it waits, what it read of `rings`.
State = namedtuple("State", "word waiting called rings threads")
# What each step makes of the word and the bell, of `rung`, and which step is next: `to` has the steps that follow.
STEPS = {
    "try": lambda s, rung, to: (s._replace(word=1), rung, to["taken" if s.word else "try"][rung is not None]),
    "count": lambda s, rung, to: (s._replace(waiting=s.waiting + 1), rung, to["count"]),
    "sleep": lambda s, rung, to: (s, rung, "asleep" if s.rings == rung else to["sleep"]),
    "asleep": lambda s, rung, to: (s, rung, to["sleep"]),
    "read": lambda s, rung, to: (s, s.rings, to["read"]),
    "take back": lambda s, rung, to: (s._replace(called=0), rung, to["take back"]),
    "end": lambda s, rung, to: (s._replace(waiting=s.waiting - 1), None, to["end"]),
    "free": lambda s, rung, to: (s._replace(word=0), rung, to["free"]),
    "look": lambda s, rung, to: (s, rung, to["look" if s.waiting else "past"]),
    "call": lambda s, rung, to: (s._replace(called=1), rung, to["past" if s.called else "call"]),
    "raise": lambda s, rung, to: (s._replace(rings=s.rings + 1), rung, to["raise"]),
    "wake": lambda s, rung, to: (s, rung, to["wake"]),
}


def steps_of(function):
    """Gives the names of the function's steps, in the order of the code."""
    file, fixed, known = FUNCTIONS[function]
    with open(f"{CODE}/{file}", encoding="utf-8") as text:
        code = re.sub(r"//.*", "", text.read())
    body = "".join(re.search(rf"\bfn {function}\b.*?\n    }}\n", code, re.DOTALL)[0].split())
    places = {step: body.find("".join(text.split())) for step, text in known.items()}
    found = sorted(places, key=places.get)
    if min(places.values()) < 0 or found[:fixed] != list(known)[:fixed] or len(ACCESS.findall(body)) != len(known):
        sys.exit(f"bell: what `{function}` in {file} does to the word or the bell is not what this model has")
    return found


def following(lines, leave, ring):
    """Gives the step after each one, after a try for who has not waited and who has. Who need not ring goes `past`."""
    out = [step for part in leave for step in (ring if part == "ring" else [part])]
    to = dict(zip(["count", *lines, "end", *out], [*lines, "try", *out, "out"]))
    return {**to, "sleep": lines[0], "past": to[ring[-1]], "try": (out[0], "end"), "taken": ("count", "sleep")}


def moves(state, to, for_no_reason):
    """Gives each step that a thread can make, with who makes it and the state after it."""
    for who, (step, holds, rung) in enumerate(state.threads):
        if step != "done" and (step != "asleep" or for_no_reason):
            after, rung, then = STEPS[step](state, rung, to)
            then, holds = (then, holds) if then != "out" else ("try" if holds > 1 else "done", holds - 1)
            threads = [*state.threads[:who], (then, holds, rung), *state.threads[who + 1:]]
            for woken in [at for at, it in enumerate(threads) if it[0] == "asleep" and step == "wake"] or [None]:
                left = ((to["sleep"], *it[1:]) if at == woken else it for at, it in enumerate(threads))
                yield who, step, after._replace(threads=tuple(left))


def explore(start, to):
    """Gives each state that can be reached, with a last step before it, and those in which all who are left sleep."""
    before, states = {start: None}, [start]
    for state in states:
        for who, step, after in moves(state, to, True):
            if after not in before:
                before[after] = (state, f"{'ABCD'[who]}: {step}")
                states.append(after)
    return before, [it for it in states if {thread[0] for thread in it.threads} in ({"asleep"}, {"asleep", "done"})]


def way_to(state, before):
    """Gives a line for each step of a shortest way to the state."""
    numbers = "  ".join(f"{name} {number}" for name, number in zip(State._fields, state[:4]))
    return [*way_to(before[state][0], before), f"{before[state][1]:12}  {numbers}"] if before[state] else []


def runs_from(state, to, known):
    """Gives how many ways lead from the state to an end, if nobody wakes for no reason."""
    if state not in known:
        known[state] = sum(runs_from(after, to, known) for _, _, after in moves(state, to, False)) or 1
    return known[state]


(*_, first, second), leave, ring, *_ = map(steps_of, ("wait", "leave", "ring", *FUNCTIONS))
ORDERS = {"as in the code": ((first, second), leave, ring), f"{second}, then {first}": ((second, first), leave, ring),
          ", then ".join(leave[::-1]): ((first, second), leave[::-1], ring),
          f"{ring[3]}, then {ring[2]}": ((first, second), leave, [*ring[:2], ring[3], ring[2]])}
into_sleep = {}
print("| Order | Threads | Holds of each | States | Runs | Sleeps for good |\n|---|---|---|---|---|---|")
for name, order in ORDERS.items():
    for count, holds in ((2, 2), (3, 1), (3, 2), (4, 1)) if name == "as in the code" else ((2, 1), (2, 2), (3, 1)):
        start, to = State(0, 0, 0, 0, (("try", holds, None),) * count), following(*order)
        (before, sleeps), runs = explore(start, to), runs_from(start, to, {})
        print(f"| {name} | {count} | {holds} | {len(before):,} | {runs:,} | {len(sleeps)} |", flush=True)
        into_sleep.update({name: way_to(sleeps[0], before)} if sleeps and name not in into_sleep else {})
for name, way in into_sleep.items():
    print(f"\n{name}:", *way, sep="\n    ")
sys.exit("as in the code" in into_sleep)
