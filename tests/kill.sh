#!/usr/bin/env bash
# Stops the program by SIGKILL at twenty points in time, all over one folder. After each stop the next run must show
# every commit whose answer was printed, and at most one more. No gate calls this.
set -eu
home="$(cd "$(dirname "${BASH_SOURCE[0]}")/.." && pwd)"
program="$home/crates/vl_prog/out/vl_prog"
folder="$(mktemp -d)"
trap 'rm -rf "$folder"' EXIT

# Commits without end, from number $1 on. Number n writes n to the key n, and to the key ff, which all write. Behind each
# eighth the log is sealed and flushed.
commits() {
  local n
  for ((n = $1; ; n++)); do
    printf 'begin t\nset t %08x %08x\nset t ff %08x\ncommit t\n' "$n" "$n" "$n"
    if [ "$((n % 8))" -eq 0 ]; then printf 'rotate\nflush\n'; fi
  done
}

# The last commit behind $1 that was answered. Only whole lines count: four a commit, and two more behind each eighth.
last_answered() {
  local last="$1" next="$(($1 + 1))" lines=0 line
  while read -r line; do
    lines="$((lines + 1))"
    if [ "$lines" -eq 4 ]; then last="${line#ok }"; fi
    if [ "$lines" -eq 6 ] || { [ "$lines" -eq 4 ] && [ "$((next % 8))" -ne 0 ]; }; then
      next="$((next + 1))"
      lines=0
    fi
  done <"$folder/answers"
  echo "$last"
}

# Lines that read the keys 1 to $1, and the one that all write.
reads() {
  printf 'view v\n'
  printf 'get v %08x\n' $(seq "$1")
  printf 'get v ff\n'
}

# Their answers, where the commits 1 to $2 are there.
answers() {
  local n
  printf 'ok %d\n' "$2"
  for n in $(seq "$1") "$2"; do
    if [ "$n" -ge 1 ] && [ "$n" -le "$2" ]; then printf 'value %08x\n' "$n"; else echo none; fi
  done
}

# Builds the program where it is missing or old. Without words it only prints its usage line.
"$home/vlstore" >"$folder/usage" || [ "$?" -eq 2 ]

shown=0
for stop in {1..20}; do
  : >"$folder/answers"
  "$program" replay "$folder/store" < <(commits "$((shown + 1))") >"$folder/answers" 2>/dev/null &
  sleep "$(printf '0.%03d' "$((1 + stop * stop / 2))")"
  kill -KILL "$!"
  wait "$!" 2>/dev/null || true

  answered="$(last_answered "$shown")"
  keys="$((answered + 2))"
  reads "$keys" | "$program" replay "$folder/store" >"$folder/shown"
  shown="$(sed -n '1s/^ok //p' "$folder/shown")"
  if [ "$shown" -lt "$answered" ] || [ "$shown" -gt "$((answered + 1))" ] ||
    ! answers "$keys" "$shown" | cmp -s - "$folder/shown"; then
    echo "stop $stop: $answered commits were answered, and the next run shows:" >&2
    cat "$folder/shown" >&2
    exit 1
  fi
  echo "stop $stop: $answered commits were answered, $shown are there"
done
