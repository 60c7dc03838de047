#!/usr/bin/env python3
"""edits.py [CRATE..]: tries the must-fail edits alone, crates/NAME/must-fail/*.edit, of the crates that are named or of all: `rt must-fail`, whose
exit status it ends with, 0 where each is refused and none is bad. It begins with what `rt check` kept. No edit stands beside the gate: `rt ci` tries
each of them too."""
import os, subprocess, sys

ROOT = os.path.realpath(os.path.join(os.path.dirname(os.path.abspath(__file__)), ".."))

if __name__ == "__main__":
    sys.exit(subprocess.run(["rt", "must-fail", *sys.argv[1:]], cwd=ROOT).returncode)
