#!/usr/bin/env bash
# Stops the example by SIGKILL at many points in time, all over one folder: in its commits, its rotation and its flush. After each
# stop the next run must open at the last commit that was told, or at one of the few behind it. No gate calls this. The example is
# built by `cd crates/vl_example && rt run`.
set -eu
home="$(cd "$(dirname "${BASH_SOURCE[0]}")/.." && pwd)"
program="$home/crates/vl_example/out/vl_example"
folder="$(mktemp -d)"
# So many commits may stand behind the last that was told: five where the example had come to its labels, which it doesn't tell.
untold=1
trap 'rm -rf "$folder"' EXIT

# The number behind "by commit" or "opened at" in the last line that has one, of which only whole lines count, or $1.
last_told() {
  local last="$1" line
  while read -r line; do
    case "$line" in
      *' by commit '*) last="${line##* }" ;;
      'opened at '*) last="${line##* }" ;;
      'opened again at '*) last="${line##* }" ;;
    esac
  done <"$folder/told"
  echo "$last"
}

told=0
tables=0
for stop in {1..100}; do
  : >"$folder/told"
  "$program" "$folder/store" >"$folder/told" 2>/dev/null &
  sleep "$(printf '0.%04d' "$((stop * 20))")"
  kill -KILL "$!" 2>/dev/null || true
  wait "$!" 2>/dev/null || true

  opened="$(sed -n '1s/^opened at //p' "$folder/told")"
  if [ -n "$opened" ]; then
    if [ "$opened" -lt "$told" ] || [ "$opened" -gt "$((told + untold))" ]; then
      echo "stop $stop: commit $told was told, and the next run opens at $opened" >&2
      exit 1
    fi
  fi
  told="$(last_told "$told")"
  # A run that was stopped before it told where it opened has made no commit.
  if [ -n "$opened" ]; then untold=1; fi
  if grep -q ' needless files were removed$' "$folder/told"; then untold=5; fi
  if grep -q '^written to table' "$folder/told"; then tables="$((tables + 1))"; fi
done
"$program" "$folder/store" >"$folder/told"
opened="$(sed -n '1s/^opened at //p' "$folder/told")"
if [ "$opened" -lt "$told" ] || [ "$opened" -gt "$((told + untold))" ]; then
  echo "commit $told was told, and the last run opens at $opened" >&2
  exit 1
fi
echo "100 stops: $told commits were told, $opened are there; $tables flushes were told"
