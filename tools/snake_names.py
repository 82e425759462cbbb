#!/usr/bin/env python3
"""Brings this repository's own definitions and lemmas to snake case, as today's Rattle spells them; run once, at the top, after the kit's port.py.

It renames in crates/*/{src,specs,proofs,must-fail}, outside strings and comments of Rattle sources, and prints names that fall together.
In the pages of docs/ and README.md it renames what stands between backticks.
With --list it only prints what it would rename."""
import os
import re
import sys

# Where the plain rule would give a name that stands beside it already.
OTHERWISE = {
    it: f"{new}_of"
    for it, new in {
        "inOrder": "in_order", "numbersFit": "numbers_fit", "addBody": "add_body", "stepKeeps": "step_keeps",
        "lastLine": "last_line", "oneByte": "one_byte", "numberBy": "number_by", "homeBy": "home_by",
    }.items()
}
OTHERWISE["getD-lay"] = "get_or-lay"
WORD = re.compile(r"(?<![A-Za-z0-9_'₀-₉\\])[A-Za-z][A-Za-z0-9_'₀-₉-]*")
CAMEL = re.compile(r"^[a-z][a-z0-9']*[A-Z]")


def snake(word):
    """The name in snake case: each part between dashes and underscores for itself."""
    if word in OTHERWISE:
        return OTHERWISE[word]
    parts = re.split(r"([-_])", word)
    for i, part in enumerate(parts):
        if CAMEL.match(part):
            parts[i] = re.sub(r"(?<=[a-z0-9'])([A-Z])", r"_\1", part).lower()
    return "".join(parts)


def is_camel(word):
    return any(CAMEL.match(part) for part in re.split(r"[-_]", word))


def pieces(text, comment):
    """The text in pieces, each with whether names in it are to be renamed: strings, byte and character literals stay."""
    literal = re.compile(r'b?"(?:\\.|[^"\\])*"|b\'(?:\\.|[^\'\\])\'' + (r"|//[^\n]*" if comment else ""), re.S)
    at = 0
    for m in literal.finditer(text):
        yield text[at:m.start()], True
        yield m.group(0), False
        at = m.end()
    yield text[at:], True


def renamed(text, comment, names):
    out = []
    for piece, ours in pieces(text, comment):
        out.append(WORD.sub(lambda m: change(m.group(0), names), piece) if ours else piece)
    return "".join(out)


def change(token, names):
    return names.get(token, token)


def files(root):
    for folder, _, names in os.walk(f"{root}/crates"):
        if "/out" in folder or "/data" in folder:
            continue
        for name in sorted(names):
            if name.endswith((".rt", ".antt", ".edit")):
                yield f"{folder}/{name}"


def words_of(path):
    with open(path, encoding="utf-8") as file:
        text = file.read()
    found = set()
    for piece, ours in pieces(text, path.endswith(".rt")):
        if ours:
            found |= {*WORD.findall(piece)}
    return found


def main():
    only_list = "--list" in sys.argv
    words = {path: words_of(path) for path in files(".")}
    camel = {w for found in words.values() for w in found if is_camel(w)}
    names = {w: snake(w) for w in camel}
    for path, found in sorted(words.items()):
        for w in sorted(found & camel):
            if names[w] in found:
                print(f"falls together: {path}: {w} and {names[w]}")
    by_new = {}
    for w in camel:
        by_new.setdefault(names[w], []).append(w)
    for new, olds in by_new.items():
        if len(olds) > 1:
            print(f"falls together: {new}: {' '.join(sorted(olds))}")
    if only_list:
        print("\n".join(f"{w} {names[w]}" for w in sorted(camel)))
        return
    for path in words:
        with open(path, encoding="utf-8") as file:
            text = file.read()
        new = renamed(text, path.endswith(".rt"), names)
        if new != text:
            with open(path, "w", encoding="utf-8") as file:
                file.write(new)
    pages = ["README.md"] + [f"docs/{it}" for it in sorted(os.listdir("docs")) if it.endswith(".md")]
    for path in pages:
        with open(path, encoding="utf-8") as file:
            text = file.read()
        new = re.sub(r"`[^`\n]+`", lambda m: WORD.sub(lambda t: change(t.group(0), names), m.group(0)), text)
        if new != text:
            with open(path, "w", encoding="utf-8") as file:
                file.write(new)


main()
