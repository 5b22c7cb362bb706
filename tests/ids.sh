#!/usr/bin/env bash
# Stops the example by SIGKILL at 100 points in time, all over one folder, while its threads give numbers: in its opening, its upkeep
# and its leases. Over all runs no number may be given twice, and each run must give numbers above all that were given before it. No
# gate calls this. The example is built by `cd crates/vl_example_threads && rt run`.
set -eu
home="$(cd "$(dirname "${BASH_SOURCE[0]}")/.." && pwd)"
program="${1:-$home/crates/vl_example_threads/out/vl_example_threads}"
folder="$(mktemp -d)"
trap 'rm -rf "$folder"' EXIT
: >"$folder/given"

# The numbers that the last run printed, of which only whole lines count: each once, and above all that were given before.
look_at() {
  local most
  most="$(tail -n 1 "$folder/given")"
  head -n "$(wc -l <"$folder/told")" "$folder/told" | sort -n >"$folder/numbers"
  if grep -qvxE '[0-9]+' "$folder/numbers" || [ -n "$(uniq -d "$folder/numbers")" ]; then
    echo "$1: a line isn't a number, or a number was given twice:" >&2
    { grep -vxE '[0-9]+' "$folder/numbers" || uniq -d "$folder/numbers"; } | head >&2
    exit 1
  fi
  if [ -s "$folder/numbers" ] && [ "$(head -n 1 "$folder/numbers")" -le "${most:-0}" ]; then
    echo "$1: $(head -n 1 "$folder/numbers") was given behind $most" >&2
    exit 1
  fi
  cat "$folder/numbers" >>"$folder/given"
}

# A whole run, which tells how long one takes.
begun="$(date +%s%N)"
"$program" "$folder/store" ids >"$folder/told"
micros="$((($(date +%s%N) - begun) / 1000))"
look_at "the first run"
whole="$(wc -l <"$folder/given")"

some=0
for stop in {1..100}; do
  "$program" "$folder/store" ids >"$folder/told" 2>/dev/null &
  sleep "$(printf '%d.%06d' "$((micros * stop / 100 / 1000000))" "$((micros * stop / 100 % 1000000))")"
  kill -KILL "$!" 2>/dev/null || true
  wait "$!" 2>/dev/null || true
  look_at "stop $stop"
  if [ -s "$folder/numbers" ]; then some="$((some + 1))"; fi
done

"$program" "$folder/store" ids >"$folder/told"
look_at "the last run"
if [ "$(wc -l <"$folder/numbers")" -ne "$whole" ]; then
  echo "the last run gave $(wc -l <"$folder/numbers") numbers, and the first gave $whole" >&2
  exit 1
fi
if [ "$some" -eq 0 ]; then
  echo "no stop was behind a number" >&2
  exit 1
fi
echo "100 stops, $some of them behind a number: $(wc -l <"$folder/given") numbers were given, each once, up to $(tail -n 1 "$folder/given")"
