#!/usr/bin/env python3
"""prune_uses.py CRATE..: drops from Invariants.antt and Answers.antt the imported names that nothing there uses."""
import glob
import re
import sys


def is_used(name, body):
    alias = name.split(" as ")[-1].strip()
    if "◌" in alias:
        return all(re.search(rf"(?<!\S){re.escape(part)}(?!\S)", body) for part in alias.split("◌") if part)
    return re.search(rf"(?<![\w.'₀-₉-]){re.escape(alias)}(?![\w'₀-₉-])", body) is not None


for crate in sys.argv[1:]:
    for path in glob.glob(f"crates/{crate}/proofs/**/*.antt", recursive=True):
        if not path.endswith(("/Answers.antt", "/Invariants.antt")):
            continue
        text = open(path, encoding="utf-8").read()
        body = re.sub(r"^use [^{\n]*(\{[^}]*\})?.*$", "", text, flags=re.M)
        body = re.sub(r"--.*", "", body)

        def one(m):
            kept = [it.strip() for it in m.group(2).split(",") if is_used(it.strip(), body)]
            return f"{m.group(1)}{{{', '.join(kept)}}}\n" if kept else ""

        def alias(m):
            return m.group(0) if re.search(rf"(?<![\w.'-]){re.escape(m.group(1))}\.", body) else ""
        new = re.sub(r"^(use [^{\n]*)\{([^}]*)\}\n", one, text, flags=re.M)
        new = re.sub(r"^use \S+ as (\S+)\n", alias, new, flags=re.M)
        if new != text:
            with open(path, "w", encoding="utf-8") as file:
                file.write(new)
