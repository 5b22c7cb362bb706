#!/usr/bin/env bash
# Simulates losses of power: runs over one folder are traced, and tests/power.py makes of each call the images that a loss of
# power there may leave. Each must open and show every commit whose answer was printed, and at most one more. First three
# runs pass. Then, in a new folder each time, one sync of a run fails, and the next run goes on, to which the system doesn't
# tell that. It wants strace and python3. No gate calls this.
set -eu
home="$(cd "$(dirname "${BASH_SOURCE[0]}")/.." && pwd)"
program="${1:-$home/crates/vl_prog/out/vl_prog}"
folder="$(mktemp -d)"
trap 'rm -rf "$folder"' EXIT

# The commits $1 to $2. Number n writes n to the key n, and to the key ff, which all write.
commits() {
  local n
  for ((n = $1; n <= $2; n++)); do
    printf 'begin t\nset t %08x %08x\nset t ff %08x\ncommit t\n' "$n" "$n" "$n"
  done
}

# Builds the program where it is missing or old. Without words it only prints its usage line.
[ "$#" -gt 0 ] || "$home/vlstore" >"$folder/usage" || [ "$?" -eq 2 ]

# Runs over the folder $1 with the commits $2 to $3, and leaves the trace $4. Words behind are strace's.
run() {
  commits "$2" "$3" |
    strace -f -y -xx -s 9999999 -e trace=openat,write,pwrite64,ftruncate,fsync,fdatasync,unlink,unlinkat "${@:5}" \
      -o "$4" "$program" replay "$1" >"$folder/answers" 2>"$folder/told"
}

for at in 0 1 2; do run "$folder/store" "$((at * 5 + 1))" "$((at * 5 + 5))" "$folder/trace$at"; done
"$home/tests/power.py" "$program" "$folder/store" "$folder"/trace?

# The number of the last commit in the folder $1, which is left as it is.
last_of() {
  rm -rf "$folder/copy"
  cp -r "$1" "$folder/copy"
  printf 'view v\n' | "$program" replay "$folder/copy" | sed -n 's/^ok //p'
}

# The sync number $1 of the run number $2 fails. Each of three runs has three commits.
lose_sync() {
  local store="$folder/failed" at last fails
  rm -rf "$store" "$folder"/failing?
  for at in 1 2 3; do
    last=0
    [ ! -d "$store" ] || last="$(last_of "$store")"
    fails=()
    [ "$at" -ne "$2" ] || fails=(-e "inject=fdatasync:error=EIO:when=$1")
    run "$store" "$((last + 1))" "$((last + 3))" "$folder/failing$at" "${fails[@]}" || [ "$at" -eq "$2" ]
  done
  echo "sync $1 of run $2 fails:"
  "$home/tests/power.py" "$program" "$store" "$folder"/failing?
}

for sync in 1 2 3 4 5; do lose_sync "$sync" 1; done
for sync in 1 2 3 4 5 6 7; do lose_sync "$sync" 2; done
