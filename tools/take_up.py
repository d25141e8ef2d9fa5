#!/usr/bin/env python3
"""Puts the work that is kept in unfinished/ in its place, in a copy of the repository.

usage: python3 tools/take_up.py FOLDER      FOLDER is made: the crates of the commit over which it was written, with that work in place

Files of unfinished/ whose names end in .rt.txt or .antt.txt go to crates/ without the .txt, the other files of its crates as they are;
unfinished/crates-listed.txt becomes crates.txt, and the files that unfinished/gone.txt names are taken away. README.md and docs/ there stay where they are.
"""

import io
import os
import shutil
import subprocess
import sys
import tarfile

TOP = os.path.dirname(os.path.dirname(os.path.realpath(__file__)))
KEPT = os.path.join(TOP, "unfinished")

# The last commit before the sources took today's forms.
WRITTEN_OVER = "a3f81b09f70e613e89c5005fee1467e7fe6fee7e"


def main():
    if len(sys.argv) != 2 or os.path.exists(sys.argv[1]):
        print(__doc__, file=sys.stderr)
        raise SystemExit(2)
    to = sys.argv[1]
    try:
        packed = subprocess.run(["git", "-C", TOP, "archive", WRITTEN_OVER, "crates"], capture_output=True, check=True).stdout
    except (OSError, subprocess.CalledProcessError):
        raise SystemExit(f"commit {WRITTEN_OVER}, from which the crates are taken, is not here: a clone with the whole history has it") from None
    with tarfile.open(fileobj=io.BytesIO(packed)) as crates:
        crates.extractall(to)
    with open(os.path.join(KEPT, "gone.txt"), encoding="utf-8") as f:
        for name in f.read().split():
            os.remove(os.path.join(to, name))
            # A folder with nothing else in it goes with its file.
            if not os.listdir(os.path.dirname(os.path.join(to, name))):
                os.rmdir(os.path.dirname(os.path.join(to, name)))
    for folder, dirs, files in os.walk(KEPT):
        if folder == KEPT:
            dirs[:] = [d for d in dirs if d != "docs"]
            continue
        for name in files:
            path = os.path.join(folder, name)
            place = os.path.relpath(path, KEPT)
            if place.endswith((".rt.txt", ".antt.txt")):
                place = place[: -len(".txt")]
            place = os.path.join(to, "crates", place)
            os.makedirs(os.path.dirname(place), exist_ok=True)
            shutil.copy(path, place)
    shutil.copy(os.path.join(KEPT, "crates-listed.txt"), os.path.join(to, "crates.txt"))


main()
