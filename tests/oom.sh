#!/usr/bin/env bash
# Refuses each allocation of a replay: it alone, and from there on all. Three scripts are tried, each over the folder that the
# one before it left. A run must end with status 5, or as it ends else, with whole lines before, and the next run must show the
# store behind the last commit whose answer was printed, or behind one more. It wants a C compiler. No gate calls this.
set -eu
home="$(cd "$(dirname "${BASH_SOURCE[0]}")/.." && pwd)"
program="${1:-$home/crates/vl_prog/out/vl_prog}"
top="$(mktemp -d)"
trap 'rm -rf "$top"' EXIT

# Builds the program where it is missing or old. Without words it only prints its usage line.
[ "$#" -gt 0 ] || "$home/vlstore" >"$top/usage" || [ "$?" -eq 2 ]
cc -O2 -shared -fPIC -o "$top/oom.so" "$home/tests/oom.c"

# Values that stand in tables, in logs, and beside a tag; reads of all kinds; a conflict.
printf -v long '%0160d' 7
cat >"$top/script1" <<END
begin a
set a 61 01
set a 62 $long
setb a 63 02 7
commit a
begin a
begin b
get b 61
scan b 61 63 9
set a 61 03
commit a
set b 64 04
commit b
view v
rscan v - - 9
getb v 63
get v 62
drop v
keep 2
begin c
del c 63
set c 65 $long
commit c
END
# All upkeep of tables.
cat >"$top/script2" <<END
rotate
flush
begin a
set a 62 $long
set a 66 05
commit a
rotate
flush
plan j
install j
view v
get v 62
getat v 61 1
scan v - - 9
drop v
begin a
del a 61
commit a
rotate
flush
drain j 1
install j
sweep
stats
END
# A pass, and what it leaves.
cat >"$top/script3" <<END
view v
get v 62
get v 65
drop v
begin a
set a 62 06
set a 67 $long
commit a
rotate
flush
plan j
drop j
pick g 1
batch g
move g
batch g
drop g
begin a
set a 68 07
commit a
sweep
stats
END

# What the store in folder $1 has: the number of its last commit, and all rows.
shown() { printf 'view v\nscan v - - 65535\n' | "$program" replay "$1" 2>&1; }

# Leaves in `states/N` what the store over folder $1 has behind each commit N of the script $2.
states() {
  local line lines=0 number
  rm -rf "$top/states"
  mkdir "$top/states"
  while read -r line; do
    lines="$((lines + 1))"
    case "$line" in
      commit*) ;;
      *) [ "$lines" -eq 1 ] || continue ;;
    esac
    rm -rf "$top/part"
    cp -r "$1" "$top/part"
    # The state before the first line stands too.
    { [ "$lines" -eq 1 ] || head -n "$lines" "$2"; } | "$program" replay "$top/part" >"$top/out"
    shown "$top/part" >"$top/state"
    number="$(sed -n '1s/^ok //p' "$top/state")"
    cp "$top/state" "$top/states/$number"
  done <"$2"
}

# The number of the last commit that was answered in the file $1, where the script is $2, or $3.
answered() {
  # Behind `ok N` a `begin`, a `view` or another line may stand, so the answers are counted with their lines.
  paste -d '\t' "$2" <(grep -v '^no memory$' "$1" | awk '
    left > 0 { left--; next }
    { print }
    /^rows [0-9]+$/ || /^segments [0-9]+$/ { left = $2 }') |
    awk -F '\t' -v last="$3" '$1 ~ /^commit/ && $2 ~ /^ok / { last = substr($2, 4) } END { print last }'
}

# Whether the answers in the file `out` are those in `wanted`, or whole lines of them and `no memory`; the status is $1.
are_answers() {
  if [ "$1" -eq 5 ]; then
    [ "$(tail -n 1 "$top/out")" = 'no memory' ] || return 1
    head -n -1 "$top/out" >"$top/front"
    cmp -s "$top/front" <(head -c "$(stat -c %s "$top/front")" "$top/wanted") &&
      { [ ! -s "$top/front" ] || [ -z "$(tail -c 1 "$top/front")" ]; }
  else
    [ "$1" -eq 0 ] && cmp -s "$top/out" "$top/wanted"
  fi
}

refusals=0
failed=0

# Refuses the allocation $1 of the script $2 over folder $3, whose last commit has the number $4, and those behind it unless
# $5 is `one`. It says whether there were so many.
refuse() {
  local status=0 last number one=()
  [ "$5" != one ] || one=(OOM_ONE=1)
  rm -rf "$top/part"
  cp -r "$3" "$top/part"
  rm -f "$top/told"
  env LD_PRELOAD="$top/oom.so" OOM_FROM="$1" OOM_TOLD="$top/told" "${one[@]}" "$program" replay "$top/part" <"$2" >"$top/out" 2>"$top/err" || status="$?"
  [ -e "$top/told" ] || return 1
  refusals="$((refusals + 1))"
  last="$(answered "$top/out" "$2" "$4")"
  shown "$top/part" >"$top/state"
  number="$(sed -n '1s/^ok //p' "$top/state")"
  if are_answers "$status" && [ -n "$number" ] &&
    { [ "$number" -eq "$last" ] || [ "$number" -eq "$((last + 1))" ]; } && cmp -s "$top/state" "$top/states/$number"; then
    return
  fi
  failed="$((failed + 1))"
  echo "$(basename "$2"), allocation $1, $5: status $status, commit $last was answered, and the store has $number" >&2
  { tail -n 1 "$top/out"; cat "$top/err"; } | cut -c 1-120 | sed 's/^/  /' >&2
}

mkdir "$top/folder0"
for at in 1 2 3; do
  script="$top/script$at"
  before="$top/folder$((at - 1))"
  cp -r "$before" "$top/folder$at"
  "$program" replay "$top/folder$at" <"$script" >"$top/wanted"
  rm -rf "$top/part"
  cp -r "$before" "$top/part"
  first="$(shown "$top/part" | sed -n '1s/^ok //p')"
  states "$before" "$script"
  n=1
  while refuse "$n" "$script" "$before" "$first" one && refuse "$n" "$script" "$before" "$first" all; do
    n="$((n + 1))"
  done
  echo "script $at: $((n - 1)) allocations"
done
if [ "$failed" -gt 0 ]; then
  echo "$failed of $refusals refusals failed"
  exit 1
fi
echo "$refusals refusals passed"
