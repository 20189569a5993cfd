#!/usr/bin/env bash
# Runs the built programs once for each exit status that can be had from a shell, and compares status and text.
# Build them first: `rt run` in crates/weaver and in crates/explain, or one call of ./weaver and of ./explain.
# Other programs may be named: statuses.sh WEAVER EXPLAIN.
set -u
top=$(cd "$(dirname "${BASH_SOURCE[0]}")/.." && pwd)
program=${1-$top/crates/weaver/out/weaver}
explain=${2-$top/crates/explain/out/explain}
for each in "$program" "$explain"; do
  if [ ! -x "$each" ]; then
    echo "$each is missing: build it first" >&2
    exit 70
  fi
done
scratch=$(mktemp -d)
trap 'rm -rf "$scratch"' EXIT
passed=0
failures=0

# is NAME WANTED FOUND
is() {
  if [ "$2" = "$3" ]; then
    echo "ok   $1"
    passed=$((passed + 1))
  else
    echo "FAIL $1: wanted '$2', found '$3'"
    failures=$((failures + 1))
  fi
}

script="$scratch/script"
printf 'weaver 1 1 1\ntx a 0 0\ncreate v\nend\ntx b 0 0\nget v\nend\n' >"$script"
report=$'report 1\ntx a 0:0:1 committed 1\ntx b 0:0:2 committed 2\ngot 1 record\norder a b\nend'

text=$("$program" run <"$script"); status=$?
is "run: status" 0 $status
is "run: text" "$report" "$text"

{ cat "$script"; printf '%s\n' "$report"; } >"$scratch/right"
text=$("$program" check <"$scratch/right"); status=$?
is "a right report: status" 0 $status
is "a right report: text" yes "$text"

{ cat "$script"; printf '%s\n' "${report/record/absent}"; } >"$scratch/wrong"
text=$("$program" check <"$scratch/wrong"); status=$?
is "a wrong report: status" 6 $status
is "a wrong report: text" "no iv 2" "$text"

steps="$scratch/steps"
printf 'weaver 1 2 1\ntx a 0 0\ncreate v\nend\ntx b 1 1\nget v\nend\nsteps\nbegin a\njudge 0\nbegin b\njudge 1\n' >"$steps"
report=$'report 1\ntx a 0:0:1,0 committed 1\ntx b 0:1:0,1 committed 2\ngot 1 record\nsettled v a b\norder a b\ndid 1 ok\ndid 2 ok\ndid 3 ok\ndid 4 ok\nend'

text=$("$program" trace <"$steps"); status=$?
is "trace: status" 0 $status
is "trace: text" "$report" "$text"

text=$({ cat "$steps"; printf '%s\n' "$text"; } | "$program" check); status=$?
is "the report of trace: status" 0 $status
is "the report of trace: text" yes "$text"

text=$("$program" trace <"$top/examples/follows.weave"); status=$?
is "trace with a program: status" 0 $status
is "trace with a program: text" "$(cat "$top/examples/follows.report")" "$text"

text=$(cat "$top/examples/follows.weave" "$top/examples/follows.report" | "$program" check); status=$?
is "the report with a program: status" 0 $status
is "the report with a program: text" yes "$text"

text=$(printf 'weaver 1 1 1\nsteps\ncollect 0\n' | "$program" trace); status=$?
is "trace with a collection: status" 0 $status
is "trace with a collection: text" $'report 1\norder\ndid 1 ok\nend' "$text"

text=$("$program" run <"$top/examples/follows.weave"); status=$?
is "run with a program: status" 0 $status
text=$({ cat "$top/examples/follows.weave"; printf '%s\n' "$text"; } | "$program" check); status=$?
is "the report of run with a program: status" 0 $status
is "the report of run with a program: text" yes "$text"

text=$("$program" load 7 200 <&-); status=$?
is "load: status" 0 $status
is "load: first line" "load 7 200" "${text%%$'\n'*}"
is "load: last line" "check yes" "${text##*$'\n'}"
is "load again" "$text" "$("$program" load 7 200 <&-)"

text=$("$program" load 7 0); status=$?
is "load of nothing: status" 5 $status
is "load of nothing: text" "" "$text"

text=$(ulimit -v 20000; "$program" load 7 10000); status=$?
is "too little memory: status" 4 $status
is "too little memory: text" "" "$text"

text=$("$program" trace more <"$steps"); status=$?
is "a word after trace: status" 5 $status

text=$(printf 'weaver 1\n' | "$program" run); status=$?
is "a refused script: status" 2 $status
is "a refused script: text" "refused 1 header" "$text"

text=$("$program" check <"$script"); status=$?
is "a missing report: status" 2 $status
is "a missing report: text" "refused 8 end" "$text"

text=$("$program" go <"$script"); status=$?
is "an unknown command: status" 5 $status
is "an unknown command: text" "" "$text"

text=$("$program" <"$script"); status=$?
is "no command: status" 5 $status

text=$("$program" run more <"$script"); status=$?
is "a word too many: status" 5 $status

text=$("$program" run <&-); status=$?
is "closed standard input: status" 1 $status
is "closed standard input: text" "" "$text"

text=$("$program" run <"$scratch"); status=$?
is "a directory as standard input: status" 1 $status

"$program" run <"$script" >&-; status=$?
is "closed standard output: status" 3 $status

if [ -w /dev/full ]; then
  "$program" run <"$script" >/dev/full; status=$?
  is "a full device: status" 3 $status
fi

# The reader of the pipe has ended before the program writes: the script comes to the program only then.
mkfifo "$scratch/pipe"
(exec 3<"$scratch/pipe"; exec 3<&-; : >"$scratch/ended") &
{
  for _ in 1 2 3 4 5 6 7 8 9 10; do
    [ -e "$scratch/ended" ] && break
    sleep 0.1
  done
  cat "$script"
} | { trap '' PIPE; "$program" run >"$scratch/pipe"; echo $? >"$scratch/status"; }
wait
is "a broken pipe: status" 3 "$(cat "$scratch/status")"

journal="$scratch/journal"
text=$(printf 'weaver 1 1 1\ntx t1 0 0\ncreate v\nset v k x\nend\n' | "$program" keep "$journal"); status=$?
is "keep: status" 0 $status
is "keep: text" $'report 1\ntx t1 1:0:1 committed 1\norder t1\nend' "$text"
is "keep: the file's length" 42 "$(wc -c <"$journal")"

text=$(printf 'weaver 1 1 1\ntx t2 0 0\nget v\nend\ntx t3 0 0\ncreate v\nend\n' | "$program" keep "$journal"); status=$?
is "keep again: status" 0 $status
is "keep again: text" $'report 1\ntx t2 2:0:1 committed 2\ngot 1 record k=x\ntx t3 2:0:2 refused 1 exists at 2\norder t2\nend' "$text"

text=$(printf 'weaver 1 2 1\n' | "$program" keep "$scratch/none"); status=$?
is "a script that can't be kept: status" 2 $status
is "a script that can't be kept: text" "refused 0 unkept" "$text"
is "a script that can't be kept: no file is made" no "$([ -e "$scratch/none" ] && echo yes || echo no)"

text=$("$program" keep "$scratch/missing/journal" <"$script"); status=$?
is "a file in no folder: status" 7 $status
is "a file in no folder: text" "" "$text"

text=$("$program" keep "$scratch" <"$script"); status=$?
is "a directory as the file: status" 7 $status

text=$(flock "$journal" "$program" keep "$journal" <"$script"); status=$?
is "a file that another process has: status" 7 $status

printf '\1\0' >"$scratch/foreign"
text=$("$program" keep "$scratch/foreign" <"$script"); status=$?
is "a file that is no journal: status" 8 $status
is "a file that is no journal: text" "" "$text"
is "a file that is no journal: it is as before" "01 00" "$(od -An -tx1 "$scratch/foreign" | xargs)"

text=$("$top/weaver" keep "$script" <"$script" 2>&1); status=$?
is "a text file, to the launcher: status" 8 $status
case "$text" in
  *"is no journal: its first byte is "*"very first commit can leave such a file too; no commit in it was ever reported"*) said=yes ;;
  *) said=$text ;;
esac
is "a text file, to the launcher: it says why" yes "$said"

"$top/weaver" look keep "$script" <"$script" >/dev/null 2>&1; status=$?
is "a text file, to a first look: status" 8 $status

printf 'weaver 1 1 1\ntx t1 0 0\ncreate v\nset v k x\nend\n' | "$program" keep "$scratch/unsaid" >&-; status=$?
is "keep without standard output: status" 3 $status
is "keep without standard output: the commit is there" 42 "$(wc -c <"$scratch/unsaid")"

text=$("$program" keep <"$script"); status=$?
is "keep without a path: status" 5 $status

# `explain`: its first line and its status are those of `check`; the words after that are in explain.cases
text=$("$explain" <"$scratch/right"); status=$?
is "explain, a right report: status" 0 $status
is "explain, a right report: first line" yes "${text%%$'\n'*}"

text=$("$explain" <"$scratch/wrong"); status=$?
is "explain, a wrong report: status" 6 $status
is "explain, a wrong report: first line" "no iv 2" "${text%%$'\n'*}"

text=$("$explain" <"$script"); status=$?
is "explain, a missing report: status" 2 $status
is "explain, a missing report: first line" "refused 8 end" "${text%%$'\n'*}"

text=$("$explain" script <"$script"); status=$?
is "explain script: status" 0 $status
is "explain script: first line" "The script can be read." "${text%%$'\n'*}"

text=$(printf 'weaver 1\n' | "$explain" script); status=$?
is "explain script, a refused one: status" 2 $status
is "explain script, a refused one: first line" "refused 1 header" "${text%%$'\n'*}"

text=$("$explain" picture <"$scratch/right"); status=$?
is "explain picture: status" 0 $status
is "explain picture: an SVG" "<svg" "${text:0:4}"
is "explain picture 1 60 is the same" "$text" "$("$explain" picture 1 60 <"$scratch/right")"

text=$("$explain" picture <"$scratch/wrong"); status=$?
is "explain picture, a wrong report: status" 0 $status
is "explain picture, a wrong report: an SVG" "<svg" "${text:0:4}"

text=$("$explain" picture <"$script"); status=$?
is "explain picture, a missing report: status" 2 $status
is "explain picture, a missing report: first line" "refused 8 end" "${text%%$'\n'*}"

for words in words "picture 0 60" "picture 1 0" "picture 01 60" "picture 1" "picture 1 60 1" "script more" \
  "picture 18446744073709551616 1"; do
  text=$("$explain" $words <"$scratch/right"); status=$?
  is "explain $words: status" 5 $status
  is "explain $words: text" "" "$text"
done

text=$("$explain" <&-); status=$?
is "explain, closed standard input: status" 1 $status
is "explain, closed standard input: text" "" "$text"

"$explain" <"$scratch/right" >&-; status=$?
is "explain, closed standard output: status" 3 $status

if [ -w /dev/full ]; then
  "$explain" picture <"$scratch/right" >/dev/full; status=$?
  is "explain, a full device: status" 3 $status
fi

{ cat "$script"; printf 'report 1\n'; yes '#' | head -c 4000000; } >"$scratch/long"
text=$(ulimit -v 10000; "$explain" <"$scratch/long"); status=$?
is "explain, too little memory: status" 4 $status
is "explain, too little memory: text" "" "$text"

# a command line that is none ends the launcher before it builds anything, and it says what it takes
text=$("$top/explain" words <"$scratch/right" 2>&1); status=$?
is "an unknown command line, to the launcher: status" 5 $status
is "an unknown command line, to the launcher: it says so" \
  "explain: words is no command: ./explain takes script, picture or no word, and its input from standard input, as in ./explain < FILE" "$text"

text=$("$top/explain" picture 0 60 <"$scratch/right" 2>&1); status=$?
is "picture 0 60, to the launcher: status" 5 $status
is "picture 0 60, to the launcher: it says so" \
  "explain: picture takes no argument, or two numbers from 1 to 18446744073709551615, as plain decimal numbers: ./explain picture 1 60 < FILE" "$text"

text=$("$top/explain" script "$script" 2>&1 </dev/null); status=$?
is "script with a file, to the launcher: status" 5 $status
is "script with a file, to the launcher: it says so" \
  "explain: script takes no argument: its input comes from standard input
explain: try: ./explain script < $script" "$text"

"$top/explain" look words >/dev/null 2>&1 </dev/null; status=$?
is "an unknown command line, to a first look: status" 5 $status

for words in help -h --help; do
  text=$("$top/explain" $words); status=$?
  is "explain $words: status" 0 $status
  is "explain $words: first line" "explain: why \`./weaver check\` answers as it does, in words; and a report drawn" \
    "${text%%$'\n'*}"
done

text=$("$top/explain" --version); status=$?
is "explain --version: status" 0 $status
is "explain --version: first word" explain "${text%%,*}"

for words in "picture --help" "help picture"; do
  text=$("$top/explain" $words); status=$?
  is "explain $words: status" 0 $status
  is "explain $words: first line" "explain picture [FROM COUNT] < FILE" "${text%%$'\n'*}"
done

"$top/explain" help words 2>/dev/null; status=$?
is "explain help words: status" 5 $status

echo "$passed ok, $failures failed"
exit $((failures > 0))
