"""What a 64-bit object file would put into memory, without the names of what it defines and without notes: so that two of them can be
compared."""
import struct

SYMBOLS, RELOCATIONS, NOTE, ABSENT, IN_MEMORY = 2, 4, 7, 8, 2


class Object:
    """The sections of an object file, as its bytes have them."""

    def __init__(self, data):
        if data[:6] != b"\x7fELF\x02\x01":
            raise ValueError("no object file of a 64-bit little-endian processor")
        self.data = data
        (at,), (size, number) = struct.unpack_from("<Q", data, 40), struct.unpack_from("<HH", data, 58)
        heads = [struct.unpack_from("<IIQQQQIIQQ", data, at + size * it) for it in range(number)]
        # Of each section its kind, flags, place in the file, size, two links and alignment.
        self.sections = [(it[1], it[2], it[4], it[5], it[6], it[7], it[8]) for it in heads]

    def bytes_of(self, section):
        kind, _, at, size, *_ = section
        return b"\0" * size if kind == ABSENT else self.data[at : at + size]

    def loaded(self):
        """The numbers of the sections that go into memory, in their order."""
        return [number for number, it in enumerate(self.sections) if it[1] & IN_MEMORY and it[3] and it[0] != NOTE]

    def symbols(self):
        """Each symbol by its section and the place in it, or by its name if it is defined elsewhere."""
        table = next(it for it in self.sections if it[0] == SYMBOLS)
        names, ordinals = self.bytes_of(self.sections[table[4]]), {it: at for at, it in enumerate(self.loaded())}
        found = []
        for name, _, _, section, value, _ in struct.iter_unpack("<IBBHQQ", self.bytes_of(table)):
            own = names[name : names.index(b"\0", name)].decode()
            found.append((ordinals.get(section, section), value) if section else own)
        return found

    def relocations(self, number, symbols):
        """Where a section refers to symbols, and to which."""
        for it in self.sections:
            if it[0] == RELOCATIONS and it[5] == number:
                for offset, info, addend in struct.iter_unpack("<QQq", self.bytes_of(it)):
                    yield offset, info & 0xFFFFFFFF, symbols[info >> 32], addend


def content(data, renamed):
    """For each section in memory its flags, alignment, bytes and relocations; `renamed` gives names of what is defined elsewhere."""
    it = Object(data)
    symbols = [renamed(symbol) if isinstance(symbol, str) else symbol for symbol in it.symbols()]
    for number in it.loaded():
        section = it.sections[number]
        yield section[1], section[6], it.bytes_of(section), sorted(it.relocations(number, symbols), key=lambda of: of[:2])
