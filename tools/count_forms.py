#!/usr/bin/env python3
"""Counts, over the src/ of every listed crate, the places where the code is written as in the older language; docs/DESIGN-PASS.md says what became of each.

    tools/count_forms.py             the counts, a line for each point
    tools/count_forms.py --list N    the places of point N
"""
import collections
import glob
import os
import re
import sys

TOP = os.path.join(os.path.dirname(os.path.abspath(__file__)), "..")
NAMES = [line.split(":")[0].split()[0] for line in open(f"{TOP}/crates.txt", encoding="utf-8") if line.strip() and not line.startswith("#")]
FN = re.compile(r'^( *)((?:pub(?:\([a-z]+\))? )?(?:unsafe )?(?:extern "C" )?fn (\w+)[^{;]*?\(.*?)^\1\}', re.M | re.S)


def sources():
    """Each file of code, as its place and its text without comments."""
    for name in NAMES:
        for path in sorted(glob.glob(f"{TOP}/crates/{name}/src/*.rt")):
            text = open(path, encoding="utf-8").read()
            yield os.path.relpath(path, f"{TOP}/crates").replace("/src/", "/"), re.sub(r"^\s*//.*$", "", text, flags=re.M)


FILES = list(sources())
FUNCTIONS = [(path, found.group(3), found.group(0)) for path, text in FILES for found in FN.finditer(text)]


def body(text):
    """A function's text behind its clauses: from the brace that stands alone, or the first one."""
    at = text.find("\n{")
    return text[at + 1 :] if at >= 0 else text[text.find("{") :]


def parameters(text):
    """A function's parameters, as name and type."""
    inside = re.sub(r"<'a[^>]*>", "", text[text.find("fn ") :])
    inside = inside[inside.find("(") + 1 :]
    depth, out = 1, ""
    for c in inside:
        depth += (c in "([{<") - (c in ")]}>")
        if depth == 0:
            break
        out += c
    return [tuple(it.strip() for it in part.split(":", 1)) for part in re.split(r",\s*(?![^\[(<]*[\])>])", out) if ":" in part]


def enums():
    for path, text in FILES:
        for found in re.finditer(r"^(?:pub )?enum (\w+)[^{]*\{\n(.*?)^\}", text, re.M | re.S):
            yield path, found.group(1), re.findall(r"^    (\w+)( \{.*?^    \}| \{.*?\}|\(.*?\))?,", found.group(2), re.M | re.S)


def point_1():
    """own enums of two variants of which one at least has data; refusals and reasons that are numbers"""
    places = [f"{path}: enum {name}" for path, name, variants in enums() if len(variants) == 2 and any(data for _, data in variants)]
    for path, text in FILES:
        if path.startswith(("exports", "answer_numbers", "reading_numbers", "probe_line_c")):
            continue
        for found in re.finditer(r"^(?:pub )?(?:enum|struct) (\w+)[^{]*\{\n(.*?)^\}", text, re.M | re.S):
            places += [f"{path}: {found.group(1)}: {it}" for it in re.findall(r"\b(?:number|reason): u(?:8|32)\b|\bRefused\(u32\)|\bStopped\(u32", found.group(2))]
    return places


def shape(text):
    """A function's tokens with names numbered by their first place, numbers and types as one; words of the language stay."""
    keep = set("fn pub let mut if else while for in match return as true false loop break self ref".split())
    names, out = {}, []
    for token in re.findall(r"\w+|[^\w\s]", body(text)):
        if re.fullmatch(r"\d\w*", token):
            out.append("0")
        elif re.fullmatch(r"[A-Za-z_]\w*", token) and token not in keep:
            out.append("T" if re.fullmatch(r"u8|u16|u32|u64|usize|bool", token) else f"n{names.setdefault(token, len(names))}")
        else:
            out.append(token)
    return " ".join(out)


def point_2():
    """functions of four lines and more whose bodies are the same but for names, numbers and types"""
    by = collections.defaultdict(list)
    for path, name, text in FUNCTIONS:
        if body(text).count("\n") >= 5:
            by[shape(text)].append(f"{path}: {name}")
    return [f"{' ~ '.join(it)}" for it in by.values() if len(it) > 1]


def point_3():
    """a while whose body steps a variable of its test by one"""
    places = []
    for path, name, text in FUNCTIONS:
        for found in re.finditer(r"^( +)while (.*?) \{\n(.*?)^\1\}", text, re.M | re.S):
            words = set(re.findall(r"\w+", found.group(2)))
            if any(it in words for it in re.findall(r"^\s+(\w+) [+-]= 1;", found.group(3), re.M)):
                places.append(f"{path}: {name}: while {found.group(2)}")
    return places


def point_4():
    """functions that are a cast alone, that compare two things of one type by hand, or that turn a number to an enum or back"""
    places = []
    for path, name, text in FUNCTIONS:
        of, inside = parameters(text), body(text)
        if re.fullmatch(r"\{\s*\w+ as \w+\s*\}", inside.strip()):
            places.append(f"{path}: {name}: a cast")
        elif "-> bool" in text.split("\n{")[0] and len(of) == 2 and of[0][1] == of[1][1] and of[0][1] not in ("u8", "u32", "usize", "u64"):
            places.append(f"{path}: {name}: equality")
        elif re.search(r"-> Way\b", text):
            places.append(f"{path}: {name}: order")
        elif re.search(r"-> u(?:8|32|64|size)\b", text.split("\n{")[0]) and len(re.findall(r"^\s+\w+::\w+ => \d+,", inside, re.M)) > 1:
            places.append(f"{path}: {name}: to a number")
        elif len(re.findall(r"^\s+\d+ => \w+::\w+,", inside, re.M)) > 1:
            places.append(f"{path}: {name}: from a number")
    return places


def point_5():
    """runs of three parameters, names and types, that stand in three functions and more; requires clauses that do"""
    by, clauses = collections.defaultdict(set), collections.defaultdict(set)
    for path, name, text in FUNCTIONS:
        of = parameters(text)
        for k in range(len(of) - 2):
            by[tuple(of[k : k + 3])].add(f"{path}: {name}")
        for it in re.findall(r"^\s+requires(?: \w+)? \{ (.*) \}$", text, re.M):
            clauses[it].add(f"{path}: {name}")
    places = [f"{', '.join(f'{a}: {b}' for a, b in run)}: {len(it)} functions" for run, it in by.items() if len(it) > 2]
    return places + [f"requires {it}: {len(where)} functions" for it, where in clauses.items() if len(where) > 2]


def point_6():
    """functions with a slice and a count of it as a parameter behind it, or with parallel slices, three and more of one type; searches that halve"""
    places = []
    for path, name, text in FUNCTIONS:
        of = parameters(text)
        kinds = collections.Counter(kind for _, kind in of if re.match(r"&(mut )?\[", kind))
        if any(count > 2 for count in kinds.values()):
            places.append(f"{path}: {name}: parallel slices")
        elif any(re.match(r"&(mut )?\[", a[1]) and b in (("n", "usize"), ("k", "usize"), ("count", "usize"), ("len", "usize"), ("m", "usize")) for a, b in zip(of, of[1:])):
            places.append(f"{path}: {name}: a slice and a count")
        if re.search(r"while low < high", text):
            places.append(f"{path}: {name}: a search that halves")
    return places


def point_7():
    """functions that choose by an enum without data which of several calls to make"""
    bare = {name for _, name, variants in enums() if all(not data for _, data in variants)}
    places = []
    for path, name, text in FUNCTIONS:
        if any(kind in bare for _, kind in parameters(text)) and len(re.findall(r"^\s+\w+::\w+ => \w+(?:::\w+)*\(", body(text), re.M)) > 1:
            places.append(f"{path}: {name}")
        places += [f"{path}: {name}: {it}" for it in re.findall(r"\bfn\([^)]*\)", text)]
    return places


def point_8():
    """answers in proofs/**/Answers.antt"""
    places = []
    for name in NAMES:
        for path in sorted(glob.glob(f"{TOP}/crates/{name}/proofs/**/Answers.antt", recursive=True)):
            text = open(path, encoding="utf-8").read()
            places += [f"{os.path.relpath(path, f'{TOP}/crates')}: {it}" for it in re.findall(r"^pub ([^\s:]+) : goal\.", text, re.M)]
    return places


POINTS = [point_1, point_2, point_3, point_4, point_5, point_6, point_7, point_8]

if __name__ == "__main__":
    if sys.argv[1:2] == ["--list"] and len(sys.argv) == 3:
        for place in POINTS[int(sys.argv[2]) - 1]():
            print(place)
    elif sys.argv[1:]:
        sys.exit(__doc__)
    else:
        for number, count in enumerate(POINTS, 1):
            print(f"{number}. {len(count())}: {count.__doc__}")
        print(f"in {len(FUNCTIONS)} functions of {len(NAMES)} crates")
