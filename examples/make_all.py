#!/usr/bin/env python3
"""Runs the `make.py` of each folder beside this script, one after another, and says which failed.

Usage: examples/make_all.py      It needs javac and java of a JDK 17.
"""

import subprocess
import sys
from pathlib import Path

HERE = Path(__file__).resolve().parent


def main():
    failed = []
    for script in sorted(HERE.glob("*/make.py")):
        print(f"{script.relative_to(HERE.parent)}", flush=True)
        if subprocess.run([sys.executable, script]).returncode:
            failed.append(script.parent.name)
    if failed:
        print("failed:", *failed)
    return 1 if failed else 0


if __name__ == "__main__":
    sys.exit(main())
