"""A module's code at chosen addresses: the rule written a second time, over a plain reader of modules in the usual form."""


class Module:
    """Areas (name, size, flags), symbols (name, whether Ref, value, area or None) and pairs (area, address, content, fragments)."""

    def __init__(self, text):
        lines = text.decode("ascii").splitlines()
        self.order = "big" if lines[0][1] == "H" else "little"
        self.width = int(lines[0][2])
        self.areas, self.symbols, self.pairs = [], [], []
        for line in lines[1:]:
            words = line.split()
            if line.startswith("A "):
                self.areas.append((words[1], int(words[3], 16), int(words[5], 16)))
            elif line.startswith("S "):
                home = len(self.areas) - 1 if self.areas else None
                self.symbols.append((words[1], words[2][:3] == "Ref", int(words[2][3:], 16), home))
            elif line.startswith("T "):
                row = [int(word, 16) for word in words[1:]]
            elif line.startswith("R "):
                self.pair(row, [int(word, 16) for word in words[1:]])
        self.kept = [i for i, (_, size, flags) in enumerate(self.areas) if flags & 0x20 and size]
        self.base, self.total = {}, 0
        for i in self.kept:
            self.base[i] = self.total
            self.total += self.areas[i][1]

    def number(self, values):
        return int.from_bytes(bytes(values), self.order)

    def pair(self, row, relocation):
        fragments, at = [], 4
        while at < len(relocation):
            mode = relocation[at]
            at += 1
            if mode >= 0xF0:
                mode = (mode & 0xF) << 8 | relocation[at]
                at += 1
            fragments.append((mode, relocation[at], self.number(relocation[at + 1:at + 3])))
            at += 3
        self.pairs.append((self.number(relocation[2:4]), self.number(row[:self.width]), row[self.width:], fragments))

    def positions(self, area, address, content):
        """Where a pair's bytes go: the place among the bytes of all kept areas, and the byte's number in the pair."""
        if area not in self.base:
            return []
        size = self.areas[area][1]
        return [(self.base[area] + address + j, j) for j in range(len(content)) if address + j < size]

    def fits(self):
        for _, _, _, fragments in self.pairs:
            touched = set()
            for mode, entry, _ in fragments:
                wide = mode & 0x80
                if mode & 0x66D or entry < self.width or (mode & 0x100 and not wide):
                    return False
                for i in range(entry, entry + (3 if wide else 2)):
                    if i in touched:
                        return False
                    touched.add(i)
        written = [place for area, address, content, _ in self.pairs for place, _ in self.positions(area, address, content)]
        return len(written) == len(set(written))

    def refers(self, mode, index, areas, symbols):
        """The address that a fragment refers to, or None."""
        home, value = index, 0
        if mode & 2:
            if index >= len(self.symbols):
                return None
            _, ref, value, home = self.symbols[index]
            if ref:
                return (symbols[index] + value) % 2 ** 64
        if home not in self.base:
            return None
        return (areas[self.kept.index(home)] + value) % 2 ** 64

    def placed(self, areas, symbols):
        """The bytes; the fields in them, by area's id and position: what is referred to, and how many bytes."""
        image, fields = bytearray(self.total), {}
        for area, address, content, fragments in self.pairs:
            if area not in self.base:
                continue
            row = list(content)
            for mode, entry, index in fragments:
                n, at = (3 if mode & 0x80 else 2), entry - self.width
                to = self.refers(mode, index, areas, symbols)
                sum_of = 0 if to is None else (to + self.number(content[at:at + n])) % 256 ** n
                row[at:at + n] = sum_of.to_bytes(n, self.order)
                fields[self.kept.index(area), address + at] = to, n
            for place, j in self.positions(area, address, content):
                image[place] = row[j]
        return bytes(image), fields
