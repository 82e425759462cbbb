#!/usr/bin/env python3
"""Placed code by the proved library, through the driver, and by a second writing of the rule.

run.py generated DRIVER SEED COUNT   generated modules, fit and unfit
run.py real DRIVER SEED FOLDER       the real modules of a folder
run.py linked DRIVER 0 FOLDER        those that are placed, against SDCC's linker
run.py program PLACE_AT EACH FOLDER  each so many-th of those through the program place_at
"""
import collections
import os
import random
import struct
import subprocess
import sys
import tempfile

sys.dont_write_bytecode = True
sys.path.insert(0, os.path.dirname(os.path.abspath(__file__)))
from second import Module  # noqa: E402

ROOM = 65536
FIT, UNFIT = [0, 2, 0x80, 0x82, 0x10, 0x12, 0x90, 0x180, 0x182], [1, 3, 4, 6, 8, 9, 0x0A, 0x20, 0x40, 0x89, 0x100, 0x200, 0x280, 0x400]


def made(r):
    """A generated module's text."""
    order, width = r.choice(["big", "little"]), r.choice([2, 3, 4])
    count, symbols, sizes = r.randint(1, 3), 0, []
    lines = ["X%s%d" % ("H" if order == "big" else "L", width)]
    for i in range(-1, count):
        if i >= 0:
            sizes.append(r.choice([0, 1, 3, 5, 9, 20, 40]))
            lines.append("A A%d size %X flags %X" % (i, sizes[i], r.choice([0x20, 0x20, 0x20, 0, 0x28])))
        for _ in range(r.randint(0, 2)):
            lines.append("S _s%d %s%04X" % (symbols, r.choice(["Ref", "Def"]), r.choice([0, 0, 5, r.getrandbits(16), r.getrandbits(32)])))
            symbols += 1

    def listed(values):
        return "".join(" %02X" % value for value in values)

    cursor, wild = [0] * (count + 1), r.random() < 0.3
    for _ in range(r.randint(0, 6)):
        area, n = r.randrange(count + (r.random() < 0.03)), r.randint(0, 9)
        address = cursor[area] if r.random() < 0.95 else r.randint(0, 12)
        cursor[area] = max(cursor[area], address + n)
        fragments, entry = [], width
        while entry < width + n and r.random() < 0.7:
            entry += r.randint(0, 2)
            mode = r.choice(UNFIT if wild and r.random() < 0.3 else FIT)
            at = r.randrange(width) if wild and r.random() < 0.05 else entry
            size = 3 if mode & 0x80 else 2
            if at + size > width + n and not (wild and r.random() < 0.05):
                break
            if mode & 2 and not symbols:
                mode &= ~2
            index = r.randrange(symbols + (wild and r.random() < 0.1)) if mode & 2 else r.randrange(count + 1)
            head = [mode] if mode < 0xF0 else [0xF0 | mode >> 8, mode & 0xFF]
            fragments += head + [at] + list(index.to_bytes(2, order))
            entry += size if r.random() < 0.99 else 1
        lines.append("T" + listed(address.to_bytes(width, order)) + listed(r.randrange(256) for _ in range(n)))
        lines.append("R 00 00" + listed(area.to_bytes(2, order)) + listed(fragments))
    return ("\n".join(lines) + "\n").encode()


def addresses(r, n):
    """Addresses, most of which share their high bits."""
    high = r.choice([0, 0x12, r.getrandbits(40), 2 ** 40 - 1])
    return [r.getrandbits(64) if r.random() < 0.2 else (high << 24) + r.getrandbits(r.choice([16, 16, 24])) for _ in range(n)]


def case(r, text, spare=0.0):
    module = Module(text)
    n, m = len(module.kept), len(module.symbols)
    if r.random() < spare and n:
        n -= 1
    if r.random() < spare and m:
        m -= 1
    both = addresses(r, n + m)
    return module, both[:n], both[n:], ROOM - (r.random() < spare)


def record(text, areas, symbols, room):
    numbers = areas + symbols
    return struct.pack("<4I", len(text), len(areas), len(symbols), room) + text + struct.pack("<%dQ" % len(numbers), *numbers)


def driven(driver, records):
    """The driver's lines on records, some at a time."""
    with tempfile.TemporaryFile() as lent:
        lent.writelines(records)
        lent.seek(0)
        yield from subprocess.run([driver], stdin=lent, check=True, capture_output=True).stdout.decode().splitlines()


def compare(seen, text, module, areas, symbols, room, line):
    """Holds a line of the driver to the rule; what differs is printed."""
    words = line.split(" ")
    if words[0] == "changed":
        return differs(seen, text, line, "a byte changed")
    refused, place, number, at, count, mismatch = map(int, words[:6])
    if room < ROOM:
        expected = 1, 0, 0, ""
    elif refused:
        expected = refused, place, 0, ""
    elif len(areas) < len(module.kept) or len(symbols) < len(module.symbols):
        expected = 1, 0, 0, ""
    elif not module.fits():
        expected = 25, 0, 0, ""
    else:
        image, fields = module.placed(areas, symbols)
        expected = 0, 0, module.total, image.hex().upper()
    seen["refused %d" % expected[0] if expected[0] else "placed"] += 1
    if (number, at, count, words[6]) != expected:
        return differs(seen, text, line, expected)
    if number:
        return None
    seen["bytes"] += count
    if mismatch != count:
        return differs(seen, text, line, "no match with the pattern")
    for word in words[8:]:
        home, position, refused, target = map(int, word.split(":"))
        to, n = fields[home, position]
        seen["fixups"] += 1
        if refused or to is None:
            return differs(seen, text, line, "a fixup without a target")
        if to >> 8 * n == (areas[home] + position) % 2 ** 64 >> 8 * n:
            seen["fixups that reach what they refer to"] += 1
            if target != to:
                return differs(seen, text, line, "another target")
    return image, bytes.fromhex(words[7])


def differs(seen, text, line, expected):
    seen["DIFFERENT"] += 1
    print("different:", text, line, expected)


def run(seen, driver, cases):
    cases = list(cases)
    records = (record(text, *lent) for text, (_, *lent) in cases)
    for (text, (module, *lent)), line in zip(cases, driven(driver, records), strict=True):
        seen["modules"] += 1
        compare(seen, text, module, *lent, line)


def real(folder):
    for name in sorted(os.listdir(folder)):
        with open(os.path.join(folder, name), "rb") as file:
            yield name, file.read()


def image_of(path):
    """The bytes of Intel hex records by their addresses."""
    found, high = {}, 0
    with open(path, encoding="ascii") as file:
        for line in file:
            row = bytes.fromhex(line.strip()[1:])
            if row[3] == 4:
                high = int.from_bytes(row[4:6], "big") << 16
            elif row[3] == 0:
                for i, byte in enumerate(row[4:4 + row[0]]):
                    found[high + int.from_bytes(row[1:3], "big") + i] = byte
    return found


def bases(module):
    """An address for each area, of which no two share a byte; and one for each symbol."""
    areas, at = [], 0x400
    for _, size, flags in module.areas:
        if flags & 0x20:
            areas.append(at)
            at += size + 5
        else:
            areas.append(0x21)
    symbols = [at + 0x100 + 3 * i for i in range(len(module.symbols))]
    return areas, symbols


def link(folder, text, module, areas, symbols):
    """The linked bytes, or None where the linker makes none."""
    with open(os.path.join(folder, "m.rel"), "wb") as file:
        file.write(text)
    words = ["sdld", "-n", "-i", "-w"]
    for (name, _, _), at in zip(module.areas, areas):
        words += ["-b", "%s=0x%X" % (name, at)]
    for (name, ref, _, _), at in zip(module.symbols, symbols):
        if ref:
            words += ["-g", "%s=0x%X" % (name, at)]
    out = os.path.join(folder, "out.ihx")
    if os.path.exists(out):
        os.unlink(out)
    subprocess.run(words + ["out", "m"], cwd=folder, capture_output=True, check=False)
    return image_of(out) if os.path.exists(out) else None


def linked(seen, driver, folder):
    held = []
    for name, text in real(folder):
        module = Module(text)
        seen["real modules"] += 1
        if not module.fits():
            continue
        seen["within the conditions"] += 1
        if not module.kept:
            seen["without an area with code"] += 1
        elif any(module.areas[i][2] & 8 for i in module.kept):
            seen["with an absolute area"] += 1
        else:
            held.append((name, text, module) + bases(module))
    records = (record(text, [areas[i] for i in module.kept], symbols, ROOM) for _, text, module, areas, symbols in held)
    with tempfile.TemporaryDirectory() as work:
        for (name, text, module, areas, symbols), line in zip(held, driven(driver, records), strict=True):
            mine = compare(seen, text, module, [areas[i] for i in module.kept], symbols, ROOM, line)
            found = link(work, text, module, areas, symbols)
            if mine is None or found is None:
                seen["not linked"] += 1
                continue
            seen["linked"] += 1
            held_to(seen, name, module, areas, symbols, *mine, found)


def held_to(seen, name, module, areas, symbols, image, masks, found):
    """Every placed byte against the linked one, but for fields that refer to what is no kept area and no outside symbol; of those the
    pattern may know no bit, so that every linked byte agrees with it."""
    zeros = set()
    _, fields = module.placed([areas[i] for i in module.kept], symbols)
    for (home, position), (to, n) in fields.items():
        if to is None:
            zeros |= {(home, position + i) for i in range(n)}
    for home, i in enumerate(module.kept):
        for j in range(module.areas[i][1]):
            byte = found.get(areas[i] + j)
            mine = image[module.base[i] + j]
            if (home, j) in zeros and masks[module.base[i] + j] == 0:
                seen["linked bytes that refer elsewhere, zeros here"] += 1
                seen["of them not zero"] += byte != 0
            elif byte is None and mine == 0:
                seen["bytes that no line writes"] += 1
            elif byte == mine:
                seen["linked bytes that are the same"] += 1
            else:
                seen["DIFFERENT"] += 1
                print("different: %s area %d position %04X: linked %s, placed %02X" % (name, home, j, byte, mine))


def listed(module, areas, fields, lines):
    """The bytes of a listing, or None where a line is not as the rule has it."""
    image, home = bytearray(), -1
    for line in lines:
        words = line.split(" ")
        if words[0] == "area":
            home += 1
            size = module.areas[module.kept[home]][1]
            right = words[3:] == [str(home), "at", "%016X" % areas[home], "size", str(size)]
        elif words[0] == "fix":
            to, n = fields[home, int(words[1], 16) - areas[home]]
            right = words[2:] == [str(n), "refers", "%016X" % to, "target", "%016X" % to]
        else:
            right = words[0] == "%016X" % (areas[home] + len(image) - module.base[module.kept[home]]) and len(words) <= 9
            image += bytes(int(word, 16) for word in words[1:])
        if not right:
            return None
    return bytes(image)


def program(seen, place_at, each, folder):
    """Modules that are placed, through the program: its listing and its raw bytes."""
    fit = [text for _, text in real(folder) if Module(text).fits() and Module(text).kept]
    for text in fit[::each]:
        module = Module(text)
        areas, symbols = bases(module)
        areas = [areas[i] for i in module.kept]
        words = [word for i, at in enumerate(areas) for word in ("area", str(i), "%X" % at)]
        words += [word for (name, ref, _, _), at in zip(module.symbols, symbols) if ref for word in ("symbol", name, "%x" % at)]
        image, fields = module.placed(areas, symbols)
        raw = subprocess.run([place_at, "-b"] + words, input=text, capture_output=True, check=True)
        lines = subprocess.run([place_at] + words, input=text, capture_output=True, check=True)
        seen["modules"] += 1
        seen["bytes"] += len(image)
        told = lines.stdout.decode().splitlines()
        seen["fixups"] += sum(line.startswith("fix ") for line in told)
        if raw.stderr or lines.stderr or raw.stdout != image or listed(module, areas, fields, told) != image:
            differs(seen, text, raw, lines)


def main(words):
    if len(words) != 4 or words[0] not in ("generated", "real", "linked", "program"):
        sys.exit(__doc__)
    seen, r = collections.Counter(), random.Random(int(words[2]))
    if words[0] == "generated":
        left = int(words[3])
        while left > 0:
            texts = [made(r) for _ in range(min(left, 5000))]
            run(seen, words[1], ((text, case(r, text, 0.02)) for text in texts))
            left -= len(texts)
    elif words[0] == "real":
        run(seen, words[1], ((text, case(r, text)) for _, text in real(words[3])))
    elif words[0] == "linked":
        linked(seen, words[1], words[3])
    else:
        program(seen, words[1], int(words[2]), words[3])
    for what, n in sorted(seen.items()):
        print("%s: %d %s" % (words[0], n, what))
    sys.exit(1 if seen["DIFFERENT"] else 0)


if __name__ == "__main__":
    main(sys.argv[1:])
