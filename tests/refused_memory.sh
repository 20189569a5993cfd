#!/usr/bin/env bash
# Refuses each allocation of some calls in turn, without a proof. It isn't part of the gate.
#
#     bash tests/refused_memory.sh                     three calls of the program (tests/refused_memory)
#     bash tests/refused_memory.sh refused_settle      the calls on a chain of replicas (tests/refused_settle)
#
# The folder has the files of a crate of tests, and its line of crates.txt in crate.txt. The tests are built once, by
# `rt try` on a copy of the repository, and linked with refuse.c by the C compiler `cc`; then each test is run once for
# each of its allocations. On threads a number is another place in each run.
set -eu
top=$(cd "$(dirname "${BASH_SOURCE[0]}")/.." && pwd)
name=${1:-refused_memory}
kit=$(dirname "$(rt doc | head -n 1)")
work=$(mktemp -d)
trap 'rm -rf "$work"' EXIT

# the copy, with the crate of the tests
tar -C "$top" --no-wildcards-match-slash --exclude='crates/*/out' -cf - crates HANDLES | tar -C "$work" -xf -
cat "$top/crates.txt" "$top/tests/$name/crate.txt" > "$work/crates.txt"
crate=$work/crates/$name
mkdir -p "$crate/src" "$work/room"
for file in lib tests; do
    cp "$top/tests/$name/$file.txt" "$crate/src/$file.rt"
done

# `rt try` makes the module of the tests in a folder that it removes at its end. With --fail-alloc the module calls what
# refuse.c defines.
(cd "$crate" && TMPDIR=$work/room rt try --test --fail-alloc 1000000000 >"$work/try" 2>&1 || true; touch "$work/ended") &
while [ ! -e "$work/ended" ]; do
    find "$work/room" -name module.bc -exec ln -f {} "$work" \; 2>/dev/null || true
    sleep 0.1
done
[ -s "$work/module.bc" ] || { cat "$work/try"; exit 1; }
"$kit/toolchain/bin/clang" -w -O0 -c -x ir "$work/module.bc" -o "$work/module.o"
"$kit/toolchain/bin/clang" -O1 -c -x c "$top/tests/refused_memory/refuse.c" -o "$work/refuse.o"
cc -o "$work/program" "$work/module.o" "$work/refuse.o" -Wl,--wrap=_exit \
    -Wl,--start-group "$kit/c/libos_c.a" "$kit/c/liblibc_c.a" -Wl,--end-group -lpthread -lm

# each test, until a run has fewer allocations than the number of the one that is refused
for test in $("$work/program" --list 2>/dev/null | sed -n 's/: test$//p'); do
    number=0
    count=0
    while [ "$count" -ge "$number" ]; do
        number=$((number + 1))
        status=0
        REFUSE=$number timeout 60 "$work/program" "$test" >"$work/said" 2>&1 || status=$?
        count=$(sed -n 's/^allocations=//p' "$work/said")
        if [ "$status" != 0 ] || [ -z "$count" ]; then
            echo "$test, allocation $number: status $status"
            cat "$work/said"
            exit 1
        fi
    done
    echo "$test: each of $((number - 1)) allocations was refused"
done
