"""Instruction words of the 37 operations, made from assembler text and told from others."""
import re

UPPER = {"lui": 0x37, "auipc": 0x17}
BRANCH = {"beq": 0, "bne": 1, "blt": 4, "bge": 5, "bltu": 6, "bgeu": 7}
IMMEDIATE = {"addi": 0, "slti": 2, "sltiu": 3, "xori": 4, "ori": 6, "andi": 7}
SHIFT = {"slli": (1, 0), "srli": (5, 0), "srai": (5, 0x20)}
REGISTER = {"add": (0, 0), "sub": (0, 0x20), "sll": (1, 0), "slt": (2, 0), "sltu": (3, 0), "xor": (4, 0),
            "srl": (5, 0), "sra": (5, 0x20), "or": (6, 0), "and": (7, 0),
            "mul": (0, 1), "div": (4, 1), "divu": (5, 1), "rem": (6, 1), "remu": (7, 1)}
FIXED = {"ecall": 0x00000073, "ebreak": 0x00100073, "mret": 0x30200073}
OPERATIONS = [*UPPER, "jal", "jalr", *BRANCH, *IMMEDIATE, *SHIFT, *REGISTER, *FIXED]
assert len(OPERATIONS) == 37


def word(name, rd=0, rs1=0, rs2=0, imm=0):
    """The word of an instruction."""
    if name in FIXED:
        return FIXED[name]
    if name in UPPER:
        return (imm & 0xfffff) << 12 | rd << 7 | UPPER[name]
    if name == "jal":
        assert imm % 2 == 0 and -(1 << 20) <= imm < 1 << 20, imm
        return ((imm >> 20 & 1) << 31 | (imm >> 1 & 0x3ff) << 21 | (imm >> 11 & 1) << 20 | (imm >> 12 & 0xff) << 12
                | rd << 7 | 0x6f)
    if name in BRANCH:
        assert imm % 2 == 0 and -4096 <= imm < 4096, imm
        return ((imm >> 12 & 1) << 31 | (imm >> 5 & 0x3f) << 25 | rs2 << 20 | rs1 << 15 | BRANCH[name] << 12
                | (imm >> 1 & 0xf) << 8 | (imm >> 11 & 1) << 7 | 0x63)
    if name in SHIFT:
        funct3, funct7 = SHIFT[name]
        assert 0 <= imm < 32, imm
        return funct7 << 25 | imm << 20 | rs1 << 15 | funct3 << 12 | rd << 7 | 0x13
    if name in REGISTER:
        funct3, funct7 = REGISTER[name]
        return funct7 << 25 | rs2 << 20 | rs1 << 15 | funct3 << 12 | rd << 7 | 0x33
    assert -2048 <= imm < 2048, imm
    opcode, funct3 = (0x67, 0) if name == "jalr" else (0x13, IMMEDIATE[name])
    return (imm & 0xfff) << 20 | rs1 << 15 | funct3 << 12 | rd << 7 | opcode


def operation(w):
    """The name of a word's operation; None for any other word."""
    opcode, funct3, funct7 = w & 0x7f, w >> 12 & 7, w >> 25
    for names, code in ((BRANCH, 0x63), (IMMEDIATE, 0x13)):
        for name, number in names.items():
            if opcode == code and funct3 == number:
                return name
    for names, code in ((SHIFT, 0x13), (REGISTER, 0x33)):
        for name, number in names.items():
            if opcode == code and (funct3, funct7) == number:
                return name
    for name, fixed in FIXED.items():
        if w == fixed:
            return name
    for name, code in UPPER.items():
        if opcode == code:
            return name
    return {0x6f: "jal", 0x67: "jalr" if funct3 == 0 else None}.get(opcode)


def foreign(w):
    """Whether it is a word that QEMU carries out and the machine does not have."""
    opcode, funct3, funct7 = w & 0x7f, w >> 12 & 7, w >> 25
    loads, stores, fences, system, register = 0x03, 0x23, 0x0f, 0x73, 0x33
    if opcode == system and funct3 == 0:
        wait, fence_of_pages = 0x10500073, 0x09
        return w == wait or funct7 == fence_of_pages and w >> 7 & 31 == 0
    return ((opcode == loads and funct3 in (0, 1, 2, 4, 5)) or (opcode == stores and funct3 in (0, 1, 2))
            or (opcode == fences and funct3 == 0) or (opcode == system and funct3 != 4)
            or (opcode == register and funct7 == 1 and funct3 in (1, 2, 3)))


def destination(w):
    """The register that a word writes; 0 for none."""
    name = operation(w)
    return 0 if name is None or name in BRANCH or name in FIXED else w >> 7 & 31


def load_constant(rd, value):
    """The words that leave a value in a register."""
    low = (value & 0xfff) - (value << 1 & 0x1000)
    high = (value - low) >> 12 & 0xfffff
    if high == 0:
        return [word("addi", rd, 0, imm=low)]
    return [word("lui", rd, imm=high)] + ([word("addi", rd, rd, imm=low)] if low else [])


def assemble(text):
    """The words of a text in assembler syntax, and the address of each label.

    Besides the 37 operations: `li RD, VALUE`, and `.word W`. A branch and JAL take a label or an offset.
    """
    lines, labels, place = [], {}, 0
    for line in text.splitlines():
        line = line.split("#")[0].strip()
        while match := re.match(r"(\w+):\s*", line):
            labels[match[1]] = place
            line = line[match.end():]
        if line:
            lines.append((place, line))
            place += 4 * (len(load_constant(*constant(line))) if line.startswith("li ") else 1)
    return [w for place, line in lines for w in line_words(line, place, labels)], labels


def constant(line):
    rd, value = line[3:].split(",")
    return register(rd), int(value, 0) & 0xffffffff


def register(text):
    return int(text.strip().removeprefix("x"))


def line_words(line, place, labels):
    name, _, rest = line.partition(" ")
    fields = [f.strip() for f in rest.replace("(", ",").replace(")", "").split(",")] if rest else []
    if name == "li":
        return load_constant(*constant(line))
    if name == ".word":
        return [int(fields[0], 0)]

    def number(text):
        return int(text, 0)

    def offset(text):
        return labels[text] - place if text in labels else int(text, 0)
    if name in FIXED:
        return [word(name)]
    if name in UPPER:
        return [word(name, register(fields[0]), imm=number(fields[1]))]
    if name == "jal":
        return [word(name, register(fields[0]), imm=offset(fields[1]))]
    if name == "jalr":
        return [word(name, register(fields[0]), register(fields[2]), imm=number(fields[1]))]
    if name in BRANCH:
        return [word(name, 0, register(fields[0]), register(fields[1]), offset(fields[2]))]
    if name in REGISTER:
        return [word(name, register(fields[0]), register(fields[1]), register(fields[2]))]
    return [word(name, register(fields[0]), register(fields[1]), imm=number(fields[2]))]
