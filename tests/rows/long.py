#!/usr/bin/env python3
"""A long script over all lines of the language, for tests/rows.sh.

`long.py script` prints it. `long.py trials FOLDER` reads what its replay printed, and writes to the folder what trials of it are
to print, in a file each that is named by the trial's words. A trial prints what the replay did up to the line that meets the
stop, and then the rows that a plain model has of the commits that are there. The stops lie evenly between none of the calls that
change the disk and all of them, and their outcomes take turns.
"""

import sys

LINES = 5000
STOPS = 50
SEED = 7
# How many keys there are: the bytes from 10 on.
KEYS = 12


def behind(x):
    """The number behind another in a row that looks random."""
    return (x * 6364136223846793005 + 1442695040888963407) % 2**64


def txn_of(x):
    """The name of a transaction that a number stands for."""
    return "ab"[(x >> 39) % 2]


def key_of(x):
    """The key that a number stands for, spelled."""
    return f"{16 + (x >> 42) % KEYS:02x}"


def value_of(x):
    """The value, spelled. Some are so long that a table doesn't have them beside their key."""
    return f"{(x >> 49) % 256:02x}" * ((x >> 45) % 97) or "-"


def step(x):
    """A line of a transaction: it begins, commits or writes."""
    txn, key, value = txn_of(x), key_of(x), value_of(x)
    kind = (x >> 33) % 8
    if kind <= 1:
        return f"begin {txn}"
    if kind <= 3:
        return f"commit {txn}"
    write = (x >> 53) % 8
    if write == 0:
        return f"del {txn} {key}"
    if write == 1:
        return f"setb {txn} {key} {value} {(x >> 56) % 256}"
    return f"set {txn} {key} {value}"


def read(x, number):
    """A line that reads, at this number where it names one, or that begins a view, or ends what is open."""
    name = "v" if (x >> 40) % 2 == 0 else txn_of(x)
    ended = ["v", "v", "v", txn_of(x), txn_of(x), "j", "j", "g"][(x >> 41) % 8]
    key, high = key_of(x), key_of(behind(x))
    kind = (x >> 33) % 16
    if kind <= 2:
        return "view v"
    if kind <= 4:
        return f"get {name} {key}"
    if kind <= 6:
        return f"getb {name} {key}"
    if kind <= 8:
        return f"getat {name} {key} {number}"
    if kind <= 10:
        return f"scan {name} {key} - 3"
    if kind <= 12:
        return f"rscan {name} {key} {high} 9"
    return f"drop {ended}"


def move(x):
    """A line that moves values, or tells how much is live."""
    kinds = ["stats", "drop g", "pick g 1", "pick g 30", "batch g", "batch g", "move g", "move g"]
    return kinds[(x >> 33) % 8]


def files(x, log):
    """A step on files."""
    kind = (x >> 33) % 16
    if kind <= 3:
        return "rotate"
    if kind <= 7:
        return "flush"
    if kind == 8:
        return "plan j"
    if kind <= 10:
        return f"drain j {log}"
    if kind <= 12:
        return "install j"
    if kind <= 14:
        return "sweep"
    return f"keep {(x >> 40) % 4}"


def script():
    """The lines. The numbers of commits and logs in them are about those that there are by then."""
    lines = []
    x = SEED
    for line in range(LINES):
        x = behind(x)
        kind, back = (x >> 33) % 16, (x >> 40) % 8
        x = behind(x)
        if kind <= 6:
            lines.append(step(x))
        elif kind <= 9:
            lines.append(read(x, max(line // 32 - back, 0)))
        elif kind <= 11:
            lines.append(move(x))
        else:
            lines.append(files(x, max(line // 40 - back, 0)))
    return lines


def calls_of(line, answer, kept):
    """How many calls a line makes that change the disk, by its answer."""
    verb, last = line.split(" ")[0], answer.split(" ")[-1]
    number = int(last) if last.isdecimal() else 0
    if verb == "move":
        return min(number, 1) * 2
    if verb == "sweep":
        return number
    if not answer.startswith("ok"):
        return 0
    if verb == "keep":
        return 0 if line == f"keep {kept}" else 2
    if verb in ("plan", "drain"):
        return min(number, 1)
    return {"commit": 2, "install": 2, "rotate": 3, "flush": 5}.get(verb, 0)


def marks_of(lines, printed):
    """What is known of the replay behind the opening, which makes six calls, and behind each line: how many lines it has printed,
    how many calls have changed the disk, and how many commits there are. And the contents at each commit's number."""
    marks, contents = [(0, 6, 0)], [{}]
    writes = {"a": {}, "b": {}}
    kept, at, calls = 1, 0, 6
    for line in lines:
        answer = printed[at] if at < len(printed) else ""
        at += 1
        if answer.startswith(("rows ", "segments ")):
            at += int(answer.split(" ")[-1])
        calls += calls_of(line, answer, kept)
        if answer.startswith("ok"):
            verb, *rest = line.split(" ")
            if verb == "begin":
                writes[rest[0]] = {}
            elif verb in ("set", "setb"):
                writes[rest[0]][rest[1]] = rest[2]
            elif verb == "del":
                writes[rest[0]][rest[1]] = None
            elif verb == "commit":
                contents.append(contents[-1] | writes[rest[0]])
            elif verb == "keep":
                kept = int(rest[0])
        marks.append((at, calls, len(contents) - 1))
    return marks, contents


def trial(printed, marks, contents, stop, keeps):
    """What a trial prints. A commit whose append has passed is there where unsynced bytes are kept."""
    length, number = 0, 0
    passed = [mark for mark in marks if mark[1] <= stop]
    if passed:
        length, calls, number = passed[-1]
        if keeps and stop > calls and len(passed) < len(marks):
            number = marks[len(passed)][2]
    rows = [f"{key} {value}" for key, value in sorted(contents[number].items()) if value is not None]
    return printed[:length] + [f"reopened {number}", f"rows {len(rows)}"] + rows


def write_trials(folder):
    printed = sys.stdin.read().split("\n")[:-1]
    marks, contents = marks_of(script(), printed)
    calls = marks[-1][1]
    if calls <= 1000:
        sys.exit(f"{calls} calls")
    for i in range(STOPS):
        stop, outcome = calls * i // (STOPS - 1), i % 3
        with open(f"{folder}/trial {stop} {outcome}", "w") as file:
            file.write("\n".join(trial(printed, marks, contents, stop, outcome == 1)) + "\n")


if sys.argv[1:] == ["script"]:
    print("\n".join(script()))
else:
    write_trials(sys.argv[2])
