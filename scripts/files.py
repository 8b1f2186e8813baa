#!/usr/bin/env python3
"""Runs the program over files of the system that go wrong, and compares status, output and what is left of the file.

    scripts/files.py

The cases are those of docs/FORMATS.md. A disk without room is a process that may write no file beyond some bytes. Where
the script runs as a user who may read and write everything, a file without rights is left out. Prints a line for each case
that differs, and how many were tried.
"""
import os
import resource
import signal
import subprocess
import sys
import tempfile
from pathlib import Path

ROOT = Path(__file__).resolve().parent.parent
PROGRAM = ROOT / "crates/green/out/green"
SESSION = b"green 1\nexecutor\nquery\nvar x 0 10\n2*x <= 7\nx >= 3\nend\n"
HEADER = b"GREENST1"
FRAME = bytes.fromhex(
    "32000000" "010200" "010100" "0100000000000000" "0300000000000000"
    "020100" "0100000000000000" "0300000000000000" "01" "0300000000000000"
)
FILE = HEADER + FRAME
SAVED = b"green answers 1\nexecutor\nsat x=3 [new 0 saved]\nend\n"
HIT = b"green answers 1\nexecutor\nsat x=3 [hit 0]\nend\n"
LOST = b"green answers 1\nexecutor\nsat x=3 [new 0 fault]\nend\n"
DUMPED = b"green dump 1\nentry 0 sat v0=3\nkey v0 <= 3\nkey v0 >= 3\nend 62\n"

tried = 0
differ = 0


def limit_to(size):
    """Lets the process write no file beyond this many bytes; a write beyond fails and raises no signal."""
    def limit():
        signal.signal(signal.SIGXFSZ, signal.SIG_IGN)
        resource.setrlimit(resource.RLIMIT_FSIZE, (size, size))
    return limit


def run(words, preexec=None, text=SESSION, **streams):
    """The status and the output of a run."""
    done = subprocess.run(
        [PROGRAM, *words], input=text, capture_output=True, preexec_fn=preexec, check=False, **streams
    )
    return done.returncode, done.stdout, done.stderr


def expect(what, got, want):
    """Compares a case."""
    global tried, differ
    tried += 1
    if got != want:
        differ += 1
        print(f"{what}: {got}, and not {want}")


def expect_run(what, words, status, output, preexec=None, text=SESSION):
    """Compares status and output; nothing may come on standard error."""
    expect(what, run(words, preexec, text), (status, output, b""))


def solve(store):
    return ["solve", "--store", str(store)]


def dump(store):
    return ["dump", "--store", str(store)]


def stores(folder):
    """Files that are made, hit, torn and changed."""
    store = folder / "answers.green"
    expect_run("no file yet", solve(store), 0, SAVED)
    expect("the file", store.read_bytes(), FILE)
    expect_run("a second run", solve(store), 0, HIT)
    expect("the file after a hit", store.read_bytes(), FILE)
    expect_run("its dump", dump(store), 0, DUMPED)
    for size in range(62):
        store.write_bytes(FILE[:size])
        last = b"end 8" if size <= 8 else b"stopped 8 short"
        expect_run(f"the dump of {size} bytes", dump(store), 0, b"green dump 1\n" + last + b"\n")
        expect(f"{size} bytes after a dump", store.read_bytes(), FILE[:size])
        expect_run(f"{size} bytes", solve(store), 0, SAVED)
        expect(f"the file after {size} bytes", store.read_bytes(), FILE)
    store.write_bytes(FILE[:54] + b"\x04" + FILE[55:])
    expect_run("a changed byte", dump(store), 0, b"green dump 1\nstopped 8 uncertified point 0\n")
    expect_run("a run over it", solve(store), 0, SAVED)
    expect("the file after it", store.read_bytes(), FILE)
    store.write_bytes(b"plain")
    expect_run("a text of 5 bytes", solve(store), 0, SAVED)
    expect("the file after it", store.read_bytes(), FILE)
    expect_run("a dump where no file is", dump(folder / "new"), 0, b"green dump 1\nend 8\n")


def refusals(folder):
    """Files that can't be opened, and inputs that leave the file alone."""
    text = folder / "a text"
    text.write_bytes(b"plaintext")
    expect_run("a text", solve(text), 17, b"fault not-a-journal\n")
    expect_run("its dump", dump(text), 17, b"fault not-a-journal\n")
    expect("the text after that", text.read_bytes(), b"plaintext")
    expect_run("no folder", solve(folder / "none" / "answers"), 14, b"fault disk\n")
    expect_run("a folder", solve(folder), 14, b"fault disk\n")
    expect_run("the dump of a folder", dump(folder), 14, b"fault disk\n")
    expect_run("an empty name", ["solve", "--store", ""], 14, b"fault disk\n")
    if os.geteuid() != 0:
        closed = folder / "closed"
        closed.write_bytes(FILE)
        closed.chmod(0o444)
        expect_run("no right to write", solve(closed), 14, b"fault disk\n")
        closed.chmod(0o222)
        expect_run("no right to read", solve(closed), 14, b"fault disk\n")
        closed.chmod(0o644)
        expect("the file after that", closed.read_bytes(), FILE)
    untouched = folder / "untouched"
    expect_run("no session", solve(untouched), 11, b"fault text 1 1 bad-header\n", text=b"")
    expect_run("wrong words", solve(untouched) + ["more"], 10, b"fault usage\n")
    expect("no file after that", untouched.exists(), False)


def full_disks(folder):
    """Disks without room."""
    store = folder / "full"
    expect_run("no room for the header", solve(store), 14, b"fault disk\n", limit_to(4))
    expect("at most 8 bytes after that", len(store.read_bytes()) <= 8, True)
    expect_run("room for the header alone", solve(store), 4, LOST, limit_to(8))
    expect("the header after that", store.read_bytes()[:8], HEADER)
    expect_run("no room for the whole frame", solve(store), 4, LOST, limit_to(40))
    expect_run("the dump of that", dump(store), 0, b"green dump 1\nstopped 8 short\n")
    expect_run("room again", solve(store), 0, SAVED)
    expect("the file after that", store.read_bytes(), FILE)
    expect_run("a hit without room", solve(store), 0, HIT, limit_to(62))


def closed_streams(folder):
    """A program that is started without a standard stream writes its file alone."""
    for number in range(3):
        store = folder / f"closed {number}"
        def close(number=number):
            os.close(number)
        run(solve(store), close)
        expect(f"the file where stream {number} is closed", store.exists() and store.read_bytes() not in (b"", FILE), False)


def main():
    subprocess.run([ROOT / "green", "dump"], stdout=subprocess.DEVNULL, check=False)
    for cases in (stores, refusals, full_disks, closed_streams):
        with tempfile.TemporaryDirectory() as folder:
            cases(Path(folder))
    print(f"{tried} cases, {differ} differ")
    sys.exit(differ != 0)


if __name__ == "__main__":
    main()
