"""The pattern book written a second time, from the request's words and not from the definition."""

import struct


def u32(data, at):
    return int.from_bytes(data[at:at + 4], "little")


def opened(data):
    """The entries of a file, or its refusal and place."""
    if len(data) < 4 or len(data) < 4 + 16 * u32(data, 0):
        return None, (21, 0)
    count = u32(data, 0)
    rows = [struct.unpack_from("<4I", data, 4 + 16 * i) for i in range(count)]
    names = []
    for i, (name_at, name_length, at, size) in enumerate(rows):
        outside = name_at + name_length > len(data) or at + 2 * size > len(data)
        name = data[name_at:name_at + name_length]
        if outside or (names and not names[-1] < name):
            return None, (21, 4 + 16 * i)
        names.append(name)
    end = 4 + 16 * count
    for i, (name_at, name_length, at, size) in enumerate(rows):
        if name_at != end or at != name_at + name_length:
            return None, (22, 4 + 16 * i)
        end = at + 2 * size
    if end != len(data):
        return None, (22, end)
    return [(data[n:n + l], data[a:a + s], data[a + s:a + 2 * s]) for n, l, a, s in rows], None


def found(data, name):
    """Where a name's pattern stands and its size, by a search through all rows."""
    for i in range(u32(data, 0)):
        name_at, name_length, at, size = struct.unpack_from("<4I", data, 4 + 16 * i)
        if data[name_at:name_at + name_length] == name:
            return at, size
    return None


def written(entries):
    """The book of entries (name, values, masks), given in any order."""
    entries = sorted(entries)
    at = 4 + 16 * len(entries)
    contents, bodies = struct.pack("<I", len(entries)), b""
    parts = []
    for name, values, masks in entries:
        contents += struct.pack("<4I", at, len(name), at + len(name), len(values))
        parts.append(name + values + masks)
        at += len(parts[-1])
    return contents + b"".join(parts)
