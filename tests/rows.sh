#!/usr/bin/env bash
# Runs the program with the words and the input of each row, in a new folder each, and looks at what it prints and at its
# status. It wants strace and python3. No gate calls this.
#
# The rows stand in tests/rows, in blocks that lines of these kinds make up:
#   $ words    runs with these words. A block may have several such lines. "" is an empty word, and {3..5} is 3, 4 and 5.
#   < text     what the input has next
#   ? text     an input, of which a block may have several, for a run each
#   > text     what is printed next
#   = status   the status, at the block's end
#   + text     an earlier run, `replay .` over this input, leaves its files in the folder
#   @ F at N   behind such runs the lowest bit of byte N of the file F is turned; `cut N` leaves its first N bytes, and `gone` none
#   ! input N  the Nth read of the input fails
#   ! output   the output has room for what is printed, and for no byte more
# In a text `;` is a line's end, and `*65*` and `*b65*` are the digits of 65 bytes 66 and bb. Such escapes as \r and \x20
# stand for a byte. Other lines are empty or begin with #.
set -eu
home="$(cd "$(dirname "${BASH_SOURCE[0]}")/.." && pwd)"
program="${1:-$home/crates/vl_prog/out/vl_prog}"
top="$(realpath "$(mktemp -d)")"
trap 'rm -rf "$top"' EXIT

# Builds the program where it is missing or old. Without words it only prints its usage line.
[ "$#" -gt 0 ] || "$home/vlstore" >"$top/usage" || [ "$?" -eq 2 ]
program="$(realpath "$program")"

# At a limit on the size of files a write fails, where else a signal would end the program.
trap '' XFSZ
limit=1024
passed=0
failed=0

# Leaves in the folder what the runs `earlier` make, with the changes `altered`.
earlier=()
altered=()
make_store() {
  local it file how place
  for it in "${earlier[@]}"; do
    (cd "$top/folder" && printf '%s' "$it" | "$program" replay . >"$top/earlier") || echo "an earlier run failed: ${it@Q}"
  done
  for it in "${altered[@]}"; do
    read -r file how place <<<"$it"
    case "$how" in
      at) python3 -c 'import sys; f = open(sys.argv[1], "r+b"); n = int(sys.argv[2]); f.seek(n); b = f.read(1)[0]; f.seek(n); f.write(bytes([b ^ 1]))' \
        "$top/folder/$file" "$place" ;;
      cut) truncate -s "$place" "$top/folder/$file" ;;
      gone) rm "$top/folder/$file" ;;
    esac
  done
}

# Runs the program with the words $1 over the file `input`. Leaves what it prints in `out`, and sets the status. Where $2 is
# a fault, it has that.
run() {
  local words fault="${2:-}" start=0 under=()
  mapfile -t -d ' ' words < <(printf '%b ' "$1")
  words=("${words[@]/#'""'/}")
  case "$fault" in
    input*) under=(strace -o "$top/trace" -P "$top/input" -e trace=read -e "inject=read:error=EIO:when=${fault#input }") ;;
    output) start="$((limit * 1024 - $(stat -c %s "$top/wanted")))" ;;
  esac
  rm -rf "$top/folder" "$top/all"
  mkdir "$top/folder"
  make_store
  truncate -s "$start" "$top/all"
  status=0
  (
    cd "$top/folder"
    [ "$fault" != output ] || ulimit -f "$limit"
    exec timeout 900 "${under[@]}" "$program" "${words[@]}" <"$top/input" >>"$top/all" 2>"$top/err"
  ) || status="$?"
  tail -c "+$((start + 1))" "$top/all" >"$top/out"
}

# Counts a row with the name $1, which passes if the words behind do, and else shows what differs.
count() {
  if "${@:2}"; then passed="$((passed + 1))"; else
    failed="$((failed + 1))"
    echo "failed: $1: status $status"
    { diff "$top/wanted" "$top/out" || true; cat "$top/err"; } | head -n 6 | cut -c 1-120 | sed 's/^/  /'
  fi
}

# Whether the run printed what the file `wanted` has, and ended with status $1.
is_wanted() { [ "$status" -eq "$1" ] && cmp -s "$top/wanted" "$top/out"; }

# Runs a row with the words $1 over `input`, which is to print `wanted` and end with status $2. $3 is its fault, $4 its place.
try() {
  run "$1" "${3:-}"
  count "${4:-}$1" is_wanted "$2"
}

# Sets `text` to what the text $1 in a block stands for.
spell() {
  local digits
  text="${1//;/$'\n'}"
  while [[ "$text" =~ \*(b?)([0-9]+)\* ]]; do
    printf -v digits '%*s' "$((BASH_REMATCH[2] * 2))" ''
    [ -n "${BASH_REMATCH[1]}" ] && digits="${digits// /b}" || digits="${digits// /6}"
    text="${text/"${BASH_REMATCH[0]}"/"$digits"}"
  done
  printf -v text '%b' "$text"
}

# Prints the words that a line of words stands for, one a line.
each_of() {
  local number
  if [[ "$1" =~ ^([^{]*)\{([0-9]+)\.\.([0-9]+)\}(.*)$ ]]; then
    local front="${BASH_REMATCH[1]}" back="${BASH_REMATCH[4]}"
    for number in $(seq "${BASH_REMATCH[2]}" "${BASH_REMATCH[3]}"); do each_of "$front$number$back"; done
  else
    printf '%s\n' "$1"
  fi
}

# Runs the rows of a block. The block was `all_words`, `inputs`, `wanted` and `fault`; $1 is its status, $2 its place.
try_block() {
  local input words place
  printf '%s' "$wanted" >"$top/wanted"
  for input in "${inputs[@]}"; do
    place="$2: "
    [ "${#inputs[@]}" -eq 1 ] || place="$2: ${input@Q} to "
    printf '%s' "$input" >"$top/input"
    for words in "${all_words[@]}"; do try "$words" "$1" "$fault" "$place"; done
  done
}

# Runs the rows of the file $1.
try_file() {
  local all_words=() inputs=() input='' wanted='' fault='' text line words at=0 first=0
  while IFS= read -r line; do
    at="$((at + 1))"
    case "$line" in
      '$ '*)
        [ "${#all_words[@]}" -gt 0 ] || first="$at"
        mapfile -t words < <(each_of "${line:2}")
        all_words+=("${words[@]}")
        ;;
      '< '*) spell "${line:2}" && input+="$text" ;;
      '? '*) spell "${line:2}" && inputs+=("$text") ;;
      '> '*) spell "${line:2}" && wanted+="$text" ;;
      '+ '*) spell "${line:2}" && earlier+=("$text") ;;
      '@ '*) altered+=("${line:2}") ;;
      '! '*) fault="${line:2}" ;;
      '= '*)
        [ "${#inputs[@]}" -gt 0 ] || inputs=("$input")
        try_block "${line:2}" "$(basename "$1"):$first"
        all_words=() inputs=() input='' wanted='' fault='' earlier=() altered=()
        ;;
      '' | '#'*) ;;
      *) echo "$1:$at: no line of a block" >&2 && exit 1 ;;
    esac
  done <"$1"
}

for file in "$home"/tests/rows/*.txt; do try_file "$file"; done

# As many views as may be open, and one more.
printf 'view v%d\n' {0..1024} >"$top/input"
{ printf 'ok 0%.0s\n' {1..1024} && echo toomany; } >"$top/wanted"
try 'replay .' 0 '' '1,025 views: '

# As many keys as a transaction may write, one more, and one of them again.
{ echo 'begin a' && printf 'set a 0%d 01\n' {10000..14096} && echo 'set a 010000 02'; } >"$top/input"
{ echo 'ok 0' && printf 'ok%.0s\n' {1..4096} && echo toobig && echo ok; } >"$top/wanted"
try 'replay .' 0 '' '4,097 keys: '

# Each transaction of a benchmark has one write and is alone, so that each commit is answered with a number.
: >"$top/input"
echo 'commits 20000' >"$top/wanted"
begins() { [ "$status" -eq 0 ] && head -n 1 "$top/out" | cmp -s - "$top/wanted"; }
run 'bench 7 20000'
count 'bench 7 20000' begins
cp "$top/out" "$top/wanted"
try 'bench 7 20000' 0 '' 'again: '

# Which turns meet a conflict hangs on the moment.
echo 'commits and conflicts 1600, total 64000' >"$top/wanted"
adds_up() {
  [ "$status" -eq 0 ] && [ "$(wc -l <"$top/out")" -eq 3 ] &&
    sed 'N;N;s/\n/ /g' "$top/out" | awk '$1 $3 $5 != "commitsconflictstotal" || $2 + $4 != 1600 || $6 != 64000 { exit 1 }'
}
run 'drive 8 200 7'
count 'drive 8 200 7' adds_up

# A long script, replayed once and tried under many stops.
"$home/tests/rows/long.py" script >"$top/script"
cp "$top/script" "$top/input"
: >"$top/wanted"
run 'replay .'
cp "$top/out" "$top/replayed"
mkdir "$top/trials"
is_long() { [ "$status" -eq 0 ] && "$home/tests/rows/long.py" trials "$top/trials" <"$top/replayed" 2>"$top/err"; }
count 'the long script: replay .' is_long
for trial in "$top"/trials/*; do
  [ -e "$trial" ] || continue
  cp "$trial" "$top/wanted"
  try "$(basename "$trial")" 0 '' 'the long script: '
done

if [ "$failed" -gt 0 ]; then
  echo "$failed rows failed, $passed passed"
  exit 1
fi
echo "$passed rows passed"
