#!/usr/bin/env python3
"""docs/openapi.json is a valid description by OpenAPI 3.1, as a validator of others says."""
# needs: openapi-spec-validator
import os
import subprocess
import sys

ROOT = os.path.dirname(os.path.dirname(os.path.dirname(os.path.abspath(__file__))))


def main():
    page = os.path.join(ROOT, "docs", "openapi.json")
    done = subprocess.run(["openapi-spec-validator", "--validation-errors", "all", page],
                          timeout=60)
    print(f"acceptance: {int(done.returncode != 0)} failed")
    return 1 if done.returncode else 0


if __name__ == "__main__":
    sys.exit(main())
