#!/usr/bin/env python3
"""Tries the wrong bodies that are outside of the merge gate, which has its own in crates/*/must-fail.

    python3 tests/reading/wrong_bodies.py [CRATE ..]     those of these crates, or of all

It copies what git has of the checkout into a folder of its own, puts tests/wrong_bodies/CRATE/*.edit where the
toolchain looks for such edits, and lets `rt must-fail` say of each whether the prover refuses it. What
stands below a crate is proved first where no check has kept it, which takes much longer than the edits. It needs `rt` on the PATH, and ends with
its status.
"""
import glob
import os
import shutil
import subprocess
import sys
import tempfile

ROOT = os.path.dirname(os.path.dirname(os.path.dirname(os.path.abspath(__file__))))


def main():
    folders = glob.glob(os.path.join(ROOT, "tests", "wrong_bodies", "*", ""))
    every = sorted(os.path.basename(os.path.dirname(folder)) for folder in folders)
    crates = sys.argv[1:] or every
    unknown = [crate for crate in crates if crate not in every]
    if unknown:
        print(f"wrong_bodies: tests/wrong_bodies has none for {', '.join(unknown)}", file=sys.stderr)
        return 2
    with tempfile.TemporaryDirectory() as copy:
        listed = subprocess.run(["git", "ls-files", "-z", "crates", "crates.txt", "HANDLES"], cwd=ROOT, check=True, stdout=subprocess.PIPE).stdout
        for name in filter(None, listed.decode().split("\0")):
            os.makedirs(os.path.dirname(os.path.join(copy, name)), exist_ok=True)
            shutil.copy2(os.path.join(ROOT, name), os.path.join(copy, name))
        for crate in crates:
            edits = os.path.join(copy, "crates", crate, "must-fail")
            # The gate's own aren't tried once more.
            shutil.rmtree(edits, ignore_errors=True)
            shutil.copytree(os.path.join(ROOT, "tests", "wrong_bodies", crate), edits)
        return subprocess.run(["rt", "must-fail", *crates], cwd=copy, check=False).returncode


if __name__ == "__main__":
    sys.exit(main())
