#!/usr/bin/env python3
"""Writes the class files of crates/picture_rows/data and crates/state_rows/data from the Java sources beside this script.

Usage: examples/pictures/make.py
It needs javac of a JDK from 9 to 19 (later ones no longer make files of version 52). The tables of rows beside the class
files and what is expected of them are written by hand.
"""

import subprocess
from pathlib import Path

HERE = Path(__file__).resolve().parent
CRATES = HERE.parent.parent / "crates"
SOURCES = {"picture_rows": ["Node.java", "Types.java"], "state_rows": ["Names.java"]}

for crate, sources in SOURCES.items():
    words = ["javac", "-g:none", "-nowarn", "--release", "8", "-d", CRATES / crate / "data"]
    subprocess.run(words + [HERE / source for source in sources], check=True, stderr=subprocess.DEVNULL)
