#!/usr/bin/env python3
"""Puts the line #![tactic(auto)] into the root file of each crate that lacks it, behind the comment that begins the file."""
import glob

for path in sorted(glob.glob("crates/*/src/lib.rt") + glob.glob("crates/*/src/main.rt")):
    text = open(path, encoding="utf-8").read()
    if "#![tactic(" in text:
        continue
    lines = text.split("\n")
    at = 0
    while at < len(lines) and lines[at].startswith("//"):
        at += 1
    lines.insert(at, "#![tactic(auto)]\n" if at < len(lines) and lines[at].strip() else "#![tactic(auto)]")
    with open(path, "w", encoding="utf-8") as file:
        file.write("\n".join(lines))
