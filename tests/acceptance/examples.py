#!/usr/bin/env python3
"""Checks that the script of examples, and what is expected of it, are what their generator writes."""
import os
import subprocess
import sys

FOLDER = os.path.join(os.path.dirname(os.path.dirname(os.path.abspath(__file__))), "examples")


def main():
    failed = subprocess.run([sys.executable, "-B", os.path.join(FOLDER, "office.py"), "check"], timeout=120).returncode != 0
    print(f"acceptance: {int(failed)} failed")
    return int(failed)


if __name__ == "__main__":
    sys.exit(main())
