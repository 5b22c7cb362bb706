#!/usr/bin/env python3
"""Losses of power, simulated from a trace of the program's system calls. tests/power.sh calls it.

usage: power.py PROGRAM FOLDER TRACE..

The traces are those of runs over FOLDER, one after the other, as `strace -f -y -xx -s 9999999` writes them. After each call
it makes the images that a loss of power there may leave: names and removals that aren't synced are there or not, and of the
bytes behind a file's last sync none, some, all or others are. What a sync that failed was to write counts as written to the
system: no later sync writes it, unless it is written again. The program opens each image, and must show each commit whose
answer was written before, and at most one more.
"""
import hashlib
import os
import re
import shutil
import subprocess
import sys
import tempfile

CALL = re.compile(r"^(?:\d+ +)?(\w+)\((.*)\) += (-?\d+)(?:<(.*)>)?")
TEXT = re.compile(r'"((?:\\x[0-9a-f]{2})*)"')
DESCRIPTOR = re.compile(r"^(\d+)<([^>]*)>")


class File:
    def __init__(self):
        self.data = b""  # what a read gives
        self.synced = b""  # what is on the disk for sure
        self.dirty = []  # from where to where it was written since the last sync, also where that failed
        self.named = False  # its name is synced

    def write(self, at, piece):
        self.data = self.data[:at].ljust(at, b"\0") + piece + self.data[at + len(piece) :]
        self.dirty.append((at, at + len(piece)))

    def flushed(self):
        """What a sync leaves."""
        left = bytearray(self.synced[: len(self.data)].ljust(len(self.data), b"\0"))
        for start, end in self.dirty:
            end = min(end, len(self.data))
            left[start:end] = self.data[start:end]
        return bytes(left)

    def sync(self, passed):
        if passed:
            self.synced = self.flushed()
        self.dirty = []


class Disk:
    def __init__(self):
        self.files = {}
        self.removed = {}  # since the folder's last sync, as they were synced


def unescaped(text):
    return bytes(int(digits, 16) for digits in re.findall(r"\\x([0-9a-f]{2})", text))


def torn(file):
    """What may be left of a file's bytes."""
    old, new = file.synced, file.flushed()
    if old == new:
        return [old, file.data]
    start = len(os.path.commonprefix([old, new]))
    tail = new[start:]
    kept = new[:start]
    half = len(tail) // 2
    return [
        old,
        new,
        kept + tail[:half],
        kept + tail[:-1],
        kept + tail[:half] + bytes(len(tail) - half),
        kept + bytes(len(tail)),
        kept + b"\xaa" * len(tail),
        kept + bytes(half) + tail[half:],
        file.data,
    ]


def images(disk):
    """The images that a loss of power may leave: each choice is made of all files alike, and of the last one alone."""
    unsynced = [name for name, file in disk.files.items() if file.data != file.synced]
    for standing in (True, False):
        for back in (True, False):
            for choice in range(9):
                for tearing in (unsynced, unsynced[-1:]):
                    image = {}
                    if back:
                        image.update(disk.removed)
                    for name, file in disk.files.items():
                        if file.named or standing:
                            left = torn(file) if name in tearing else [file.data]
                            image[name] = left[min(choice, len(left) - 1)]
                    yield image


def shown_by(program, image, keys):
    """How many commits the program shows of an image, or None where what it shows is no state of the store."""
    folder = tempfile.mkdtemp()
    try:
        for name, data in image.items():
            with open(os.path.join(folder, name), "wb") as out:
                out.write(data)
        lines = ["view v"] + ["get v %08x" % key for key in range(1, keys + 1)] + ["get v ff"]
        run = subprocess.run([program, "replay", folder], input="\n".join(lines) + "\n", capture_output=True, text=True)
        answers = run.stdout.split("\n")
        if run.returncode != 0 or not answers[0].startswith("ok "):
            return None
        shown = int(answers[0][3:])
        told = ["value %08x" % key if key <= shown else "none" for key in range(1, keys + 1)]
        told.append("value %08x" % shown if shown else "none")
        return shown if answers[1:-1] == told else None
    finally:
        shutil.rmtree(folder)


class Losses:
    def __init__(self, program, folder):
        self.program = program
        self.folder = os.path.realpath(folder)
        self.disk = Disk()
        self.answered = 0
        self.parent_synced = False  # in this run
        self.seen = set()
        self.bad = 0

    def name_of(self, path):
        parent, name = os.path.split(path)
        return name if os.path.realpath(parent) == self.folder else None

    def lose(self, where):
        for image in images(self.disk):
            key = hashlib.sha256(repr((sorted(image.items()), self.answered)).encode()).digest()
            if key in self.seen:
                continue
            self.seen.add(key)
            shown = shown_by(self.program, image, self.answered + 2)
            if shown is None or not self.answered <= shown <= self.answered + 1:
                self.bad += 1
                print(f"after {where}: {self.answered} commits were answered, and {shown} are shown", file=sys.stderr)

    def follow(self, line):
        match = CALL.match(line)
        if not match:
            return
        call, given, result, target = match.groups()
        failed = result.startswith("-")
        if failed and call not in ("fdatasync", "fsync"):
            return
        place = DESCRIPTOR.match(given)
        path = unescaped(place[2]).decode() if place and "\\x" in place[2] else place[2] if place else ""
        name = self.name_of(path) if path else None
        files = self.disk.files
        if call == "openat" and "O_CREAT" in given and target:
            made = self.name_of(unescaped(target).decode() if "\\x" in target else target)
            if made:
                files[made] = File()
                self.disk.removed.pop(made, None)
                self.lose(f"the making of {made}")
        elif call == "pwrite64" and name:
            piece = unescaped(TEXT.search(given)[1])[: int(result)]
            files[name].write(int(given.rsplit(", ", 1)[1]), piece)
            self.lose(f"a write to {name}")
        elif call == "ftruncate" and name:
            files[name].data = files[name].data[: int(given.rsplit(", ", 1)[1])]
            self.lose(f"a cut of {name}")
        elif call in ("fdatasync", "fsync") and name:
            files[name].sync(not failed)
            self.lose(f"a sync of {name}")
        elif failed:
            return
        elif call == "fsync" and path and os.path.realpath(path) == self.folder:
            for file in files.values():
                file.named = True
            self.disk.removed = {}
            self.lose("a sync of the folder")
        elif call == "fsync" and path and os.path.realpath(path) == os.path.dirname(self.folder):
            self.parent_synced = True
        elif call in ("unlink", "unlinkat"):
            gone = self.name_of(unescaped(TEXT.search(given)[1]).decode())
            if gone in files:
                self.disk.removed[gone] = files.pop(gone).synced
                self.lose(f"the removal of {gone}")
        elif call == "write" and given.startswith("1<"):
            if not self.parent_synced:
                self.bad += 1
                print("an answer was written before the folder's own name was synced", file=sys.stderr)
            for answer in unescaped(TEXT.search(given)[1]).decode().split("\n"):
                if answer.startswith("ok "):
                    self.answered = int(answer[3:])
                    self.lose(f"the answer to commit {self.answered}")


def main():
    program, folder, *traces = sys.argv[1:]
    losses = Losses(program, folder)
    for trace in traces:
        losses.parent_synced = False
        with open(trace) as lines:
            for line in lines:
                losses.follow(line)
    print(f"{len(losses.seen)} images, {losses.bad} bad, {losses.answered} commits")
    sys.exit(1 if losses.bad or not losses.answered else 0)


main()
