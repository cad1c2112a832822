"""A guest's ELF file, by the rules of `dc`: what is wrong with it, and which of its words are no instructions."""
import struct

LEAST_MEMORY, MOST_MEMORY, PAGE = 65536, 1048576, 4096

# What the words of `dc` after `guest 0 refused:` mean.
MEANINGS = {
    "short": "it is shorter than an ELF header",
    "magic": "it is no ELF file",
    "class": "it is not of 32 bits: compile with -march=rv32i -mabi=ilp32",
    "order": "it is not little-endian",
    "file type": "it is no executable: link it, without -r, -pie or -shared",
    "machine": "it is not for RISC-V",
    "flags": "it has compressed instructions, 16 registers or a floating-point calling convention: compile with -march=rv32i -mabi=ilp32",
    "headers": "its program headers are too many, of another size, or past the end of the file",
    "segment": "its part of that number does not lie in the memory, or not in the file",
    "entry": "it does not begin at a multiple of four within the memory",
}


class BadMemory(ValueError):
    """A size that no plan takes."""


def memory_of(text):
    """The bytes that a text such as 65536 or 64K says."""
    digits, factor = (text[:-1], 1024) if text[-1:] in ("K", "k") else (text, 1)
    if not (digits.isascii() and digits.isdigit()):
        raise BadMemory(f"memory {text}: a number of bytes, or of KiB as in 128K, is needed")
    size = int(digits) * factor
    if not LEAST_MEMORY <= size <= MOST_MEMORY or size % PAGE:
        raise BadMemory(f"memory {text}: it has to be a multiple of 4096 from 65536 (64K) to 1048576 (1024K)")
    return size


def half_at(data, at):
    return struct.unpack_from("<H", data, at)[0]


def word_at(data, at):
    return struct.unpack_from("<I", data, at)[0]


def parts_of(data):
    """The parts to be loaded: number, offset, address, bytes in the file, bytes in memory."""
    first, count = word_at(data, 28), half_at(data, 44)
    for i in range(count):
        kind, offset, address, _, filed, sized = struct.unpack_from("<6I", data, first + 32 * i)
        if kind == 1 and (filed or sized):
            yield i, offset, address, filed, sized


def header_fault(data):
    if len(data) < 52:
        return "short"
    if data[:4] != b"\x7fELF":
        return "magic"
    if data[4] != 1:
        return "class"
    if data[5] != 1:
        return "order"
    if half_at(data, 16) != 2:
        return "file type"
    if half_at(data, 18) != 243:
        return "machine"
    if word_at(data, 36) & 0b1111:
        return "flags"
    count = half_at(data, 44)
    if count == 65535 or count and (half_at(data, 42) != 32 or word_at(data, 28) + 32 * count > len(data)):
        return "headers"
    return None


def fault_of(data, memory):
    """The word or words that `dc` would refuse the file with, for a memory of this size; None where it loads."""
    fault = header_fault(data)
    if fault:
        return fault
    for i, offset, address, filed, sized in parts_of(data):
        if filed > sized or offset + filed > len(data) or address + sized > memory:
            return f"segment {i}"
    entry = word_at(data, 24)
    return "entry" if entry % 4 or entry + 4 > memory else None


def meaning_of(fault):
    return MEANINGS["segment" if fault.startswith("segment") else fault]


def end_of(data):
    """The first address behind all parts of a file that loads."""
    return max((address + sized for _, _, address, _, sized in parts_of(data)), default=0)


def is_instruction(word):
    """Whether a word is one of the 40 instructions of RV32I."""
    opcode, kind, top = word & 0x7F, word >> 12 & 7, word >> 25
    if opcode == 0x73:
        return word in (0x00000073, 0x00100073)
    if opcode == 0x33:
        return top == 0 or top == 32 and kind in (0, 5)
    if opcode == 0x13:
        return kind not in (1, 5) or top == 0 or top == 32 and kind == 5
    kinds = {0x37: range(8), 0x17: range(8), 0x6F: range(8), 0x67: [0], 0x0F: [0], 0x63: [0, 1, 4, 5, 6, 7], 0x03: [0, 1, 2, 4, 5], 0x23: [0, 1, 2]}
    return kind in kinds.get(opcode, [])


def code_of(data):
    """The sections of instructions: address and bytes."""
    first, size, count = word_at(data, 32), half_at(data, 46), half_at(data, 48)
    for i in range(count if first and size == 40 and first + 40 * count <= len(data) else 0):
        _, kind, flags, address, offset, length = struct.unpack_from("<6I", data, first + 40 * i)
        if kind == 1 and flags & 4:
            yield address, data[offset : offset + length]


def other_words(data):
    """Address and word, of each word among the instructions that is none."""
    for address, code in code_of(data):
        for at in range(0, len(code) - 3, 4):
            word = word_at(code, at)
            if not is_instruction(word):
                yield address + at, word
