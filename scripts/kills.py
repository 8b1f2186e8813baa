#!/usr/bin/env python3
"""Kills the program while it saves, again and again, and checks what its file has.

    scripts/kills.py [RUNS]

Each run solves a session over one file and is killed at a random moment (100 runs where no number is given). After each,
`dump` has to recover at least the entries that it recovered before, each as it was, and nothing but a torn frame may stand
behind them. In the end a run that isn't killed has to give the same verdicts as one without a file, and a whole file; and
a last one has to save nothing more. Every few runs the file begins anew, so that kills meet its beginning too. Prints how
many runs were killed, how many entries were recovered, and how often a torn frame was found.
"""
import random
import signal
import subprocess
import sys
import tempfile
import time
from pathlib import Path

ROOT = Path(__file__).resolve().parent.parent
PROGRAM = ROOT / "crates/green/out/green"
SESSION = ROOT / "examples/triangle_classifier.green"
RUNS_OF_A_FILE = 10


def solve(store):
    """The lines of the answers, without a file where store is None."""
    words = [PROGRAM, "solve"] + (["--store", store] if store else [])
    with open(SESSION, "rb") as session:
        done = subprocess.run(words, stdin=session, capture_output=True, check=False)
    return done.returncode, done.stdout.decode().splitlines()


def verdicts(lines):
    """The verdicts alone: models and places may be others where entries were there before."""
    return [line.split()[0] for line in lines]


def dump(store):
    """The entries of the file, each as its lines, and the last line."""
    done = subprocess.run([PROGRAM, "dump", "--store", store], capture_output=True, check=False)
    lines = done.stdout.decode().splitlines()
    if done.returncode != 0 or lines[0] != "green dump 1":
        sys.exit(f"dump ended with status {done.returncode}: {lines[:1]}")
    entries = []
    for line in lines[1:-1]:
        if line.startswith("entry "):
            entries.append([])
        entries[-1].append(line)
    return entries, lines[-1]


def kill_one(store, longest):
    """Solves over the file, and kills that at a random moment; says whether it was still running."""
    with open(SESSION, "rb") as session:
        run = subprocess.Popen(
            [PROGRAM, "solve", "--store", store], stdin=session, stdout=subprocess.DEVNULL
        )
        time.sleep(random.uniform(0, longest))
        run.send_signal(signal.SIGKILL)
        return run.wait() == -signal.SIGKILL


def check_file(store, before):
    """The entries that the file has now, which begin with those from before, and whether a torn frame stands behind."""
    entries, last = dump(store)
    if entries[: len(before)] != before:
        sys.exit("an entry that was there before is lost or changed")
    word = last.split()
    if word[0] != "end" and word[2:] != ["short"]:
        sys.exit(f"more than a torn frame stands behind the entries: {last}")
    return entries, word[0] != "end"


def main():
    runs = int(sys.argv[1]) if len(sys.argv) > 1 else 100
    subprocess.run([ROOT / "green", "dump"], stdout=subprocess.DEVNULL, check=False)
    status, alone = solve(None)
    with tempfile.TemporaryDirectory() as folder:
        began = time.monotonic()
        solve(str(Path(folder) / "timed"))
        longest = time.monotonic() - began
        killed = recovered = torn = 0
        for number in range(runs):
            if number % RUNS_OF_A_FILE == 0:
                store = str(Path(folder) / f"store {number}")
                entries = []
            killed += kill_one(store, longest)
            if Path(store).exists():
                entries, is_torn = check_file(store, entries)
                recovered += len(entries)
                torn += is_torn
        again, answers = solve(store)
        if (again, verdicts(answers)) != (status, verdicts(alone)):
            sys.exit("the verdicts over the file are others")
        entries, last = dump(store)
        if not last.startswith("end "):
            sys.exit(f"the file isn't whole: {last}")
        if solve(store)[0] != status or dump(store) != (entries, last):
            sys.exit("a run that only hits changed the file")
    print(f"{runs} runs, {killed} killed; {recovered} entries recovered; {torn} torn frames; all is there")


if __name__ == "__main__":
    main()
