"""Reads relocatable ELF files for Linux, alone or as members of an archive."""
import struct
import sys

SYMTAB, RELA, NOBITS = 2, 4, 8  # types of a section
WRITE, ALLOC, EXEC, MERGE, STRINGS, TLS = 1, 2, 4, 0x10, 0x20, 0x400  # flags of a section
GLOBAL, SECTION = 1, 3  # the binding of a symbol; the type of one that stands for a section


class Machine:
    """A processor: how an assembler for it calls relocations, and what begins a comment there."""

    def __init__(self, name, comment, relocations):
        self.name, self.comment, self.relocations = name, comment, relocations


MACHINES = {
    62: Machine('x86-64', '#', {
        1: 'R_X86_64_64', 2: 'R_X86_64_PC32', 4: 'R_X86_64_PLT32', 9: 'R_X86_64_GOTPCREL', 10: 'R_X86_64_32', 11: 'R_X86_64_32S',
        41: 'R_X86_64_GOTPCRELX', 42: 'R_X86_64_REX_GOTPCRELX'}),
    183: Machine('aarch64', '//', {
        257: 'R_AARCH64_ABS64', 261: 'R_AARCH64_PREL32', 275: 'R_AARCH64_ADR_PREL_PG_HI21', 277: 'R_AARCH64_ADD_ABS_LO12_NC',
        278: 'R_AARCH64_LDST8_ABS_LO12_NC', 282: 'R_AARCH64_JUMP26', 283: 'R_AARCH64_CALL26', 284: 'R_AARCH64_LDST16_ABS_LO12_NC',
        285: 'R_AARCH64_LDST32_ABS_LO12_NC', 286: 'R_AARCH64_LDST64_ABS_LO12_NC', 299: 'R_AARCH64_LDST128_ABS_LO12_NC'}),
}


def members(path):
    """The objects of an archive, as bytes, in their order."""
    with open(path, 'rb') as file:
        data = file.read()
    if data[:8] != b'!<arch>\n':
        sys.exit(f'{path} is no archive')
    at = 8
    while at < len(data):
        name, size = data[at:at + 16].rstrip(), int(data[at + 48:at + 58])
        if name not in (b'/', b'//'):  # neither the table of symbols nor that of long names
            yield data[at + 60:at + 60 + size]
        at += 60 + size + size % 2


class Section:
    def __init__(self, number, fields):
        self.number = number
        self.name_at, self.type, self.flags, _, self.at, self.size, self.link, self.info, self.align, _ = fields
        self.relocations = []


class Symbol:
    def __init__(self, number, name, info, section, value, size):
        self.number, self.name, self.binding, self.type = number, name, info >> 4, info & 15
        self.section, self.value, self.size = section, value, size

    @property
    def is_defined(self):
        return self.section != 0


class Relocation:
    """Four or eight bytes of a section that the linker fills in."""

    def __init__(self, offset, kind, symbol, addend):
        self.offset, self.kind, self.symbol, self.addend = offset, kind, symbol, addend


class Object:
    def __init__(self, data):
        self.data = data
        kind, machine = struct.unpack_from('<HH', data, 16)
        if data[:6] != b'\x7fELF\2\1' or kind != 1 or machine not in MACHINES:
            sys.exit('an object is for another machine than x86-64 or aarch64 Linux')
        self.machine = MACHINES[machine]
        (start,), (count, names) = struct.unpack_from('<Q', data, 40), struct.unpack_from('<HH', data, 60)
        self.sections = [Section(number, struct.unpack_from('<IIQQQQIIQQ', data, start + 64 * number)) for number in range(count)]
        for section in self.sections:
            section.name = text_at(self.bytes_of(self.sections[names]), section.name_at)
        self.symbols = []
        for table in self.sections:
            if table.type == SYMTAB:
                self.read_symbols(table)
        for table in self.sections:
            if table.type == RELA:
                self.read_relocations(table)

    def read_symbols(self, table):
        strings = self.bytes_of(self.sections[table.link])
        for number, (name, info, _, section, value, size) in enumerate(struct.iter_unpack('<IBBHQQ', self.bytes_of(table))):
            self.symbols.append(Symbol(number, text_at(strings, name), info, section, value, size))

    def read_relocations(self, table):
        for offset, info, addend in struct.iter_unpack('<QQq', self.bytes_of(table)):
            found = Relocation(offset, info & 0xffffffff, self.symbols[info >> 32], addend)
            if found.kind not in self.machine.relocations:
                sys.exit(f'{table.name} has a relocation of an unknown kind: {found.kind}')
            self.sections[table.info].relocations.append(found)

    def bytes_of(self, section):
        return b'' if section.type == NOBITS else self.data[section.at:section.at + section.size]

    def loaded(self):
        """The sections that a program has in memory."""
        used = {it.symbol.section for section in self.sections for it in section.relocations}
        return [section for section in self.sections if section.flags & ALLOC and (section.size or section.number in used)]


def text_at(table, at):
    return table[at:table.index(b'\0', at)].decode()
