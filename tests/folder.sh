#!/usr/bin/env bash
# Runs the program over folders in odd states, with odd words, and with calls of the system that fail. It wants strace. No gate calls this.
set -eu
home="$(cd "$(dirname "${BASH_SOURCE[0]}")/.." && pwd)"
program="${1:-$home/crates/vl_prog/out/vl_prog}"
top="$(mktemp -d)"
trap 'rm -rf "$top"' EXIT

# Builds the program where it is missing or old. Without words it only prints its usage line.
[ "$#" -gt 0 ] || "$home/vlstore" >"$top/usage" || [ "$?" -eq 2 ]

commit='begin t\nset t 01 02\ncommit t\n'

# The greatest number in the answers, which is that of the last commit that was answered.
answered() {
  { echo 0; sed -n 's/^ok //p' "$top/out"; } | sort -n | tail -n 1
}

# Whether the store in folder $1 shows $2 commits or one more.
shows() {
  local shown
  shown="$(printf 'view v\n' | "$program" replay "$1" | sed -n 's/^ok //p')"
  [ "$shown" -eq "$2" ] || [ "$shown" -eq "$(($2 + 1))" ]
}

# Whether the program, over folder $2 and with the k-th call $3 failing by $4, says so on its standard error in one line
# that has the text $5, ends with status 3 and leaves a store with the commits that it answered.
fails_at() {
  local call="$1" folder="$2" inject="$3" text="$4" status=0
  printf "$commit$commit" | strace -f -o "$top/trace" -e "trace=$call" -e "inject=$call:$inject" "$program" replay "$folder" \
    >"$top/out" 2>"$top/err" || status="$?"
  [ "$status" -ne 0 ] && [ "$(wc -l <"$top/err")" -eq 1 ] && grep -q "$text" "$top/err" &&
    shows "$folder" "$(answered)"
}

check() {
  if "${@:2}"; then echo "ok: $1"; else
    echo "failed: $1" >&2
    cat "$top/err" >&2 || true
    exit 1
  fi
}

check 'a full disk is told as such' fails_at pwrite64 "$top/full" error=ENOSPC:when=4 'No space left on device'
check 'a failed sync halts' fails_at fdatasync "$top/lost" error=EIO:when=4 'Input/output error'
check 'a failed sync of the folder halts' fails_at fsync "$top/names" error=EIO:when=4 'Input/output error'

streams_apart() {
  printf "$commit" | "$program" replay "$top/streams" >&- 2>&- || true
  "$program" replay "$top/streams" <&- >"$top/out" 2>&- || true
  printf "$commit" | "$program" replay "$top/streams" >"$top/out" && shows "$top/streams" "$(answered)" || return 1
  # What is told of a failed call goes to no stream, and into no file.
  local sync
  for sync in 1 2 3; do
    printf "$commit" | strace -f -o "$top/trace" -e trace=fdatasync -e "inject=fdatasync:error=EIO:when=$sync" \
      "$program" replay "$top/apart$sync" >&- 2>&- || true
    ! grep -rqs 'vlstore: ' "$top/apart$sync" &&
      printf 'view v\n' | "$program" replay "$top/apart$sync" >"$top/out" 2>"$top/err" || return 1
  done
}
check 'what is printed lands in no file where streams are closed' streams_apart

in_use() {
  local status=0
  printf "$commit" | "$program" replay "$top/used" >"$top/out"
  mkfifo "$top/lines"
  "$program" replay "$top/used" <"$top/lines" >"$top/first" &
  exec 3>"$top/lines"
  printf 'view v\n' >&3
  while [ ! -s "$top/first" ]; do sleep 0.1; done
  "$program" replay "$top/used" </dev/null >"$top/out" 2>"$top/err" || status="$?"
  exec 3>&-
  wait
  [ "$status" -ne 0 ] && grep -q 'in use' "$top/err" && [ "$(wc -l <"$top/err")" -eq 1 ]
}
check 'a folder in use is told as such' in_use

# A name of the store's that is a folder or a link: each try fails alike and makes nothing.
leaves_alone() {
  local before after
  before="$(ls -R "$1")"
  for _ in 1 2 3; do
    if "$program" replay "$1" </dev/null >"$top/out" 2>"$top/err"; then return 1; fi
    grep -q 'no plain file' "$top/err" || return 1
  done
  after="$(ls -R "$1")"
  [ "$before" = "$after" ]
}
mkdir -p "$top/folder/0000000001.vlog" "$top/link"
echo theirs >"$top/theirs"
ln -s "$top/theirs" "$top/link/0000000001.vlog"
check 'a folder under a name of the store is left alone' leaves_alone "$top/folder"
check 'a link under a name of the store is left alone' leaves_alone "$top/link"
check 'what the link leads to is too' grep -qx theirs "$top/theirs"

# A file of the store that can't be looked at: the system's reason is told, at the file.
unseen() {
  printf "$commit" | "$program" replay "$top/unseen" >"$top/out"
  strace -o "$top/trace" -P "$top/unseen/0000000001.vlog" -e inject=statx,lstat,newfstatat:error=EIO:when=1 \
    "$program" replay "$top/unseen" </dev/null >"$top/out" 2>"$top/err" && return 1
  grep -q '0000000001.vlog: Input/output error' "$top/err"
}
check 'why a file is not seen is told' unseen

# A log that is removed beside a run takes no more commits, and what was answered before is not answered again.
removed() {
  local status=0
  rm -f "$top/lines" "$top/first"
  mkfifo "$top/lines"
  "$program" replay "$top/removed" <"$top/lines" >"$top/first" 2>"$top/err" &
  exec 3>"$top/lines"
  printf "$commit" >&3
  until grep -qs '^ok 1$' "$top/first"; do sleep 0.1; done
  rm "$top/removed"/*.vlog
  printf "$commit" >&3
  exec 3>&-
  wait "$!" || status="$?"
  [ "$status" -eq 3 ] && ! grep -q '^ok 2$' "$top/first" && [ "$(tail -n 1 "$top/first")" = 'disk fault' ] &&
    grep -q '0000000001.vlog: it was removed by somebody else$' "$top/err" && [ "$(wc -l <"$top/err")" -eq 1 ]
}
check 'a commit into a file that was removed is a fault' removed

# Calls that a signal interrupts are made again.
interrupted() {
  local upkeep='rotate\nflush\nsweep\n'
  printf "$commit$upkeep" | strace -f -o "$top/trace" -e trace=mkdir,getdents64,unlink -e inject=mkdir:error=EINTR:when=1 \
    -e inject=getdents64:error=EINTR:when=1..2 -e inject=unlink:error=EINTR:when=1 \
    "$program" replay "$top/interrupted" >"$top/out" 2>"$top/err" &&
    [ "$(grep -c 'EINTR.*INJECTED' "$top/trace")" -eq 4 ] && shows "$top/interrupted" 1
}
check 'an interrupted call is made again' interrupted

# Two runs that make the folder at once: each has it, or is told that the other has.
at_once() {
  local run status
  for run in 1 2; do
    status=0
    printf "$commit" | strace -f -o "$top/trace$run" -e trace=mkdir -e inject=mkdir:delay_enter=300000 \
      "$program" replay "$top/above/both" >"$top/first$run" 2>"$top/err$run" &
  done
  wait
  for run in 1 2; do
    grep -q '^ok 1$' "$top/first$run" || grep -q 'in use$' "$top/err$run" || return 1
  done
  grep -q EEXIST "$top"/trace? && grep -q '^ok 1$' "$top"/first?
}
check 'two runs make the folder at once' at_once

# A file system that syncs no folders, where the folder's parent lies; the folder itself must be synced.
parents() {
  local status=0
  printf "$commit" | strace -f -o "$top/trace" -e trace=fsync -e inject=fsync:error=EINVAL:when=1..2 \
    "$program" replay "$top/parents" >"$top/out" 2>"$top/err" && shows "$top/parents" 1 || return 1
  strace -f -o "$top/trace" -e trace=fsync -e inject=fsync:error=EINVAL:when=2 \
    "$program" replay "$top/parents" </dev/null >"$top/out" 2>"$top/err" || status="$?"
  [ "$status" -eq 3 ] && grep -q 'parents: Invalid argument' "$top/err"
}
check 'a parent that can not be synced is passed over' parents

# A store of more files than a process may open.
few_files() {
  local n
  for n in {1..40}; do printf 'begin t\nset t %02x 02\ncommit t\nrotate\nflush\n' "$n"; done |
    "$program" replay "$top/many" >"$top/out"
  [ "$(ls "$top/many" | wc -l)" -gt 40 ] || return 1
  { printf 'view v\n' && printf 'get v %02x\n' {1..40} && printf 'begin t\nset t 01 03\ncommit t\nrotate\nflush\nplan j\ninstall j\nsweep\n'; } |
    (ulimit -n 12 && "$program" replay "$top/many" >"$top/out" 2>"$top/err") &&
    [ "$(grep -c '^value 02$' "$top/out")" -eq 40 ] && [ ! -s "$top/err" ]
}
check 'a store has more files than may be open' few_files

# A read that fails is told as such, also where it is a reader's.
untold_reads() {
  local read status seen=0
  printf "${commit}rotate\nflush\n" | "$program" replay "$top/unread" >"$top/out"
  for read in {1..20}; do
    status=0
    printf 'view v\nget v 01\n' | strace -f -o "$top/trace" -P "$top/unread/0000000001.vtab" -e trace=pread64 \
      -e "inject=pread64:error=EIO:when=$read" "$program" replay "$top/unread" >"$top/out" 2>"$top/err" || status="$?"
    [ "$status" -ne 0 ] || break
    [ "$status" -eq 3 ] && [ "$(cat "$top/err")" = "vlstore: $top/unread/0000000001.vtab: Input/output error (os error 5)" ] ||
      return 1
    seen="$((seen + 1))"
  done
  [ "$status" -eq 0 ] && [ "$seen" -gt 0 ]
}
check 'a read that fails is told' untold_reads

# Whether the program ends with status $1 and one line that begins with $2, where its words are those behind.
ends_by() {
  local status=0
  "$program" "${@:3}" </dev/null >"$top/out" 2>"$top/err" || status="$?"
  [ "$status" -eq "$1" ] && [ "$(wc -l <"$top/out")" -eq 1 ] && grep -q "^$2" "$top/out"
}
usage='usage: vlstore replay DIR, trial'
mkdir "$top/logs"
echo theirs >"$top/logs/0000000001.vlog"
check 'a word that is no text gets the usage line' ends_by 2 "$usage" replay $'\xff'
check 'a third word gets the usage line' ends_by 2 "$usage" replay "$top/third" .
check 'a file in the place of the folder is a fault' ends_by 3 'disk fault$' replay "$top/theirs"
check 'a log without a manifest is no store' ends_by 4 'not a store$' replay "$top/logs"
