# What the launchers `weaver` and `explain` have in common. Each sets `top`, the repository's folder, and `name`, that of its
# crate and program, and then reads this file.
crate="$top/crates/$name"
program="$crate/out/$name"

# whether a word is a decimal number up to this one, without zeros in front
is_number() {
  case "$1" in
    0) return 0 ;;
    "" | 0* | *[!0-9]*) return 1 ;;
  esac
  [ ${#1} -lt ${#2} ] || { [ ${#1} = ${#2} ] && [[ ! "$1" > "$2" ]]; }
}

# the sources' commit, if they are a clone's, and the kit
version() {
  local commit
  commit=$(git -C "$top" describe --always --dirty 2>/dev/null) || commit="a copy without its history"
  echo "$name, $commit"
  if command -v rt >/dev/null; then
    echo "built by the Rattle kit: $(rt version)"
  else
    echo "the Rattle kit (rt) is not on the path"
  fi
}

# compiles and runs the program without its proof
first_look() {
  echo "$name: a first look: compiled now without the proof (about two minutes), so nothing of this run is proved" >&2
  cd "$crate" && exec rt try -- "$@"
  exit 70
}

# the program's crate and those below it, by crates.txt
crates() {
  awk -v name="$name" -F: '!/^#/ && NF > 1 { below[$1] = $2 }
    END {
      list[1] = name; seen[name] = 1; last = 1
      for (at = 1; at <= last; at++) {
        print list[at]
        parts = split(below[list[at]], names, " ")
        for (part = 1; part <= parts; part++)
          if (names[part] in below && !(names[part] in seen)) { seen[names[part]] = 1; list[++last] = names[part] }
      }
    }' "$top/crates.txt"
}

# whether one of its sources, or a folder from which one was taken away, is newer than the program
is_old() {
  [ ! -x "$program" ] && return 0
  local each places=()
  for each in $(crates); do
    places+=("$top/crates/$each/src" "$top/crates/$each/specs" "$top/crates/$each/proofs")
  done
  [ -n "$(find "${places[@]}" "$top/crates.txt" -newer "$program" -print -quit 2>/dev/null)" ]
}

# says on standard error each minute how far the build is
follow() {
  local from=$SECONDS all ready
  all=$(crates | wc -l)
  while kill -0 "$1" 2>/dev/null; do
    sleep 1
    if [ $(((SECONDS - from) % 60)) -eq 59 ]; then
      ready=$(sed -n 's/^== //p; s/^crate \([a-z_]*\): .*/\1/p' "$2" | sort -u | wc -l)
      [ "$ready" -lt "$all" ] && ready="$ready of $all crates checked" || ready="all crates checked, building the program"
      echo "$name: $ready, $(((SECONDS - from + 1) / 60)) min so far" >&2
    fi
  done
}

# whether the crates that the log doesn't have as checked are each below the next, so that they come one at a time
is_chain() {
  awk -v name="$name" 'FILENAME == ARGV[1] { if ($1 == "==") checked[$2] = 1; next }
    !/^#/ && split($0, side, ":") > 1 {
      split(side[1], head, " ")
      names[++count] = head[1]
      parts = split(side[2], libs, " ")
      for (part = 1; part <= parts; part++) {
        below[head[1], libs[part]] = 1
        for (at = 1; at < count; at++)
          if ((libs[part], names[at]) in below) below[head[1], names[at]] = 1
      }
    }
    END {
      last = ""
      for (at = 1; at <= count; at++)
        if (!(names[at] in checked) && (names[at] == name || (name, names[at]) in below)) {
          if (last != "" && !((names[at], last) in below)) exit 1
          last = names[at]
        }
    }' "$1" "$top/crates.txt"
}

# Proves the crates side by side, one a processor and 4 GB of memory, while there are some that don't need each other;
# then one after another, with as many functions of each side by side. Links the program. `$1` is where its output goes.
build() {
  local lanes=$(($(awk '/^MemAvailable/ { print $2 }' /proc/meminfo) / 4000000)) crates
  [ "$lanes" -gt "$(nproc)" ] && lanes=$(nproc)
  [ "$lanes" -lt 1 ] && lanes=1
  cd "$crate" || return
  set -m
  rt all check --jobs "$lanes" &
  crates=$!
  set +m
  while kill -0 "$crates" 2>/dev/null; do
    sleep 2
    is_chain "$1" && kill -TERM -- "-$crates" 2>/dev/null
  done
  wait "$crates"
  rt check --jobs "$lanes" && rt run </dev/null
}

# builds the program if it is older than its sources; `$@` is the command line
build_if_old() {
  local took="$crate/out/seconds" last="" log
  is_old || return 0
  [ -r "$took" ] && last=" (last time that took $(cat "$took") s)"
  echo "$name: proving and building the program$last; for a first look without the proof: ./$name look $*" >&2
  rm -f "$program"
  log=$(mktemp)
  build "$log" >"$log" 2>&1 &
  follow $! "$log"
  if [ ! -x "$program" ]; then
    tail -n 40 "$log" >&2
    echo "$name: the program couldn't be built; the whole log is $log" >&2
    exit 70
  fi
  echo "$SECONDS" >"$took"
  rm -f "$log"
}

# says on a terminal every ten seconds how long the program has been at it
clock() {
  local from=$SECONDS
  while sleep 10; do echo "$name: $1 has been running for $((SECONDS - from)) s" >&2; done
}

# runs the program with the command line after `$1`, which says what is running
start() {
  local what=$1 status
  shift
  # memory in large pages, 16 MiB of it at a time, and freed blocks kept for the next use: otherwise a run of many steps
  # spends a third of its time on new pages and on giving blocks back. The stacks of ended threads are kept for those of
  # the next phase, and threads share as many parts of memory as there are processors
  local tunables=glibc.malloc.hugetlb=1:glibc.malloc.top_pad=16777216:glibc.malloc.tcache_count=65535
  tunables=$tunables:glibc.pthread.stack_cache_size=1073741824:glibc.malloc.arena_max=$(nproc)
  export GLIBC_TUNABLES="${GLIBC_TUNABLES-$tunables}"
  if [ -t 2 ]; then
    clock "$what" &
    clock=$!
    trap 'kill "$clock" 2>/dev/null' EXIT
  fi
  "$program" "$@"
  status=$?
  [ "$status" = 1 ] && echo "$name: reading standard input failed (is it a folder, or closed?)" >&2
  exit "$status"
}
