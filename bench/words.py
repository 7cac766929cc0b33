"""words.py FILE [big]: the words of an ELF file's .text on standard output, little-endian or big-endian, in the order
of the file."""

import struct
import sys

CLASS_64 = 2
BIG_ENDIAN = 2


class Elf:
    def __init__(self, data):
        if data[:4] != b"\x7fELF":
            raise ValueError("not an ELF file")
        self.data = data
        self.wide = data[4] == CLASS_64
        self.order = ">" if data[5] == BIG_ENDIAN else "<"
        table, counts = (0x28, 0x3A) if self.wide else (0x20, 0x2E)
        (self.sections,) = self.unpack("Q" if self.wide else "I", table)
        self.size, self.count, names = self.unpack("HHH", counts)
        self.names = self.section(names)[1]

    def unpack(self, form, at):
        return struct.unpack_from(self.order + form, self.data, at)

    def section(self, k):
        """Name, offset and length of section k."""
        form = "IIQQQQ" if self.wide else "IIIIII"
        name, _, _, _, offset, length = self.unpack(form, self.sections + k * self.size)
        return name, offset, length

    def name(self, at):
        start = self.names + at
        return self.data[start : self.data.index(b"\0", start)]

    def words(self):
        for k in range(self.count):
            name, offset, length = self.section(k)
            if self.name(name) == b".text":
                return self.unpack(f"{length // 4}I", offset)
        raise ValueError("no .text")


def main():
    with open(sys.argv[1], "rb") as file:
        words = Elf(file.read()).words()
    order = ">" if sys.argv[2:] == ["big"] else "<"
    sys.stdout.buffer.write(struct.pack(f"{order}{len(words)}I", *words))


main()
