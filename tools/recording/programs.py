"""The programs that are recorded: tables of edge operands, chains, traps, interrupts, small algorithms, random ones."""
from .runs import Program
from .words import (BRANCH, FIXED, IMMEDIATE, OPERATIONS, REGISTER, SHIFT, UPPER, assemble, foreign, load_constant, operation,
                    word)

LEAST, MINUS_1 = 0x80000000, 0xffffffff
EDGES = [0, 1, MINUS_1, LEAST, 0x7fffffff, 2, 31, 32, 33, 7, 0xfffffff9, 0x80000001, 0x0000ffff, 0xaaaaaaaa]
IMMEDIATES = [0, 1, -1, 2047, -2048, 31, 32, 7]
SHIFTS = [0, 1, 4, 15, 16, 30, 31]
# words that are no instruction: lone bits, shifts by 32 and more, funct3 of no branch and no JALR, funct7 of no operation,
# the opcodes of 64-bit, atomic and floating-point instructions, loads, stores and fences of no kind, and words that are
# ECALL, EBREAK, MRET or another return but for a field
ILLEGAL = [0, MINUS_1, 1, LEAST, 2, 0x0000ffff, 0x00000011, 0x02001013, 0x02005013, 0x42005013, 0x80001013, 0x00002063,
           0x00003063, 0x00001067, 0x00007067, 0x40001033, 0x40007033, 0x04000033, 0x80000033, 0x0000001b, 0x0000003b,
           0x0200003b, 0x0000002f, 0x00000007, 0x00000027, 0x00000053, 0x00000057, 0x00003003, 0x00006003, 0x00007003,
           0x00003023, 0x00007023, 0x0000100f, 0x0000200f, 0x00004073, 0x000000f3, 0x00008073, 0x001000f3, 0x00108073,
           0x302000f3, 0x30208073, 0x00200073, 0x10200073, 0x70200073, 0x7b200073]
SLOW = ["mul", "div", "divu", "rem", "remu"]


def written(name, text, limit=400, line=(), pc="0", vector="0"):
    """A program in assembler text; pc and vector are labels or numbers."""
    words, labels = assemble(text)

    def address(at):
        return labels[at] if at in labels else int(at, 0)
    return Program(name, words, address(pc), address(vector), list(line), limit)


def edges():
    """The words that put the edge values into x1, x2, ..."""
    return [w for n, value in enumerate(EDGES, 1) for w in load_constant(n, value)]


def operation_tables():
    """Every operation with operands on every pair of edges."""
    places = range(1, len(EDGES) + 1)
    for name in REGISTER:
        yield Program(f"table {name}", edges() + [
            word(name, 15 + (a + b) % 17, a, b) for a in places for b in places])
    for name in IMMEDIATE:
        yield Program(f"table {name}", edges() + [
            word(name, 15 + a, a, imm=imm) for a in places for imm in IMMEDIATES])
    for name in SHIFT:
        yield Program(f"table {name}", edges() + [word(name, 15 + a, a, imm=imm) for a in places for imm in SHIFTS])
    numbers = [0, 1, 2, 0x7ff, 0x800, 0x7ffff, 0x80000, 0x80001, 0xffffe, 0xfffff]
    for name in UPPER:
        yield Program(f"table {name}", [word(name, rd, imm=imm) for rd in (0, 1, 17, 31) for imm in numbers])
    few = [n for n in places if EDGES[n - 1] in (0, 1, MINUS_1, LEAST, 0x7fffffff, 0x80000001, 7, 0xfffffff9)]
    for name in BRANCH:
        # taken, a branch passes over the count of those that are not
        yield Program(f"table {name}", edges() + [
            w for a in few for b in few for w in (word(name, 0, a, b, 8), word("addi", 20, 20, imm=1))])
    for name in BRANCH:
        # a target between words is a trap for a taken branch alone; the handler goes on after the one that trapped
        yield written(f"misaligned {name}", f"""
            li x1, -1
            li x2, 1
            li x31, 4
            jal x0, first
        handler: addi x29, x29, 1
            beq x29, x31, done
            add x30, x1, x0
            add x1, x2, x0
            add x2, x30, x0
            mret
        first: {name} x1, x2, 6
            {name} x2, x1, -6
            {name} x1, x1, 2
            {name} x1, x2, -2
            {name} x0, x1, 4094
            {name} x1, x0, -4094
        done: addi x28, x29, 0
        """, vector="handler", limit=60)


def jumps():
    yield written("jumps forward and back", """
            jal x1, three
        two: jal x2, four
            addi x9, x9, 1
        three: jal x0, two
            addi x9, x9, 2
        four: jal x31, next
        next: jal x0, 4
            beq x0, x0, 4
            bne x1, x0, last
            ebreak
        last: jal x5, 0x0ffffe
        """, limit=20)
    yield written("jumps through registers", """
            auipc x1, 0
            jalr x2, 12(x1)
            ebreak
            jalr x1, 21(x1)          # the lowest bit is cleared, and rd is rs1
            ebreak
            auipc x3, 0
            addi x3, x3, 1
            jalr x3, 11(x3)
            jalr x0, 0(x4)
            ebreak
        """, limit=30)
    for offset in (-2048, -6, -4, -3, -2, -1, 0, 1, 2, 3, 4, 5, 6, 7, 16, 30, 2047):
        yield written(f"jalr by {offset}", f"""
            addi x1, x0, 20
            jalr x2, {offset}(x1)
            addi x3, x2, 1
            addi x3, x3, 1
            addi x3, x3, 1
            addi x3, x3, 1
            jalr x1, {offset}(x1)
        handler: addi x1, x1, 2
            addi x4, x4, 1
            slti x5, x4, 4
            beq x5, x0, 8
            mret
        """, vector="handler", limit=40)
    for target in ("-4", "0xffffe", "-0x100000", "4096", "4092", "6", "-2"):
        yield written(f"jal by {target}", f"""
            jal x1, 8
            mret
            addi x2, x2, 1
            jal x3, {target}
        """, vector="4", limit=12)
    for base in (LEAST, MINUS_1, 0xfffffffc, 0x7ffffffe, 4096, 4097):
        yield written(f"jalr from {base:08x}", f"""
            li x1, {base}
            jalr x2, 0(x1)
            jalr x3, 4(x1)
            jalr x3, -4(x1)
        handler: addi x4, x4, 1
            mret
        """, vector="handler", limit=12)


def chains(rng):
    for name in REGISTER:
        # each reads what the one before it wrote
        body = [word(name, 5, 5, 6) if i % 2 else word(name, 5, 6, 5) for i in range(40)]
        yield Program(f"chain {name}", load_constant(5, 0x9e3779b9) + load_constant(6, 0x00001235) + body)
    for name in SLOW:
        again = [word(name, 5, 5, 5), word("addi", 5, 5, imm=3)] * 12
        yield Program(f"self {name}", load_constant(5, 0xfffffc19) + again)
        # the result goes into the operands of the next, which the other slow unit works out
        other = "div" if name == "mul" else "mul"
        turns = [word(name, 7, 5, 6), word(other, 5, 7, 6), word("addi", 5, 5, imm=-77), word(name, 6, 5, 7),
                 word("xori", 6, 6, imm=1365)] * 8
        yield Program(f"turns {name}", load_constant(5, 0x7ffffff1) + load_constant(6, 0xffffffef) + turns)
        # younger ones that are done long before, and write the same registers
        overtakes = []
        for i in range(8):
            overtakes += [word(name, 8, 5, 6), word("addi", 9, 8, imm=1), word("addi", 8, 0, imm=i), word("add", 10, 8, 9),
                          word("addi", 5, 5, imm=-5), word(name, 0, 5, 6), word("add", 11, 0, 0), word("sub", 6, 10, 5)]
        yield Program(f"overtaking {name}", load_constant(5, 0xdeadbeef) + load_constant(6, 13) + overtakes)
    yield Program("four products at once", load_constant(1, 0x10001) + [
        word("mul", 2 + i % 7, 1 + i % 4, 1 + i % 5) for i in range(80)])
    yield Program("quotients beside products", load_constant(1, 0xfffe0001) + load_constant(2, 97) + [
        word(rng.choice(SLOW), 3 + i % 5, 1 + i % 7, 1 + (i * 3) % 7) for i in range(80)])
    yield Program("a chain as long as the program", [word("addi", 1, 1, imm=2047)] * 200 + [word("add", 1, 1, 1)] * 40)


def illegal_word(rng):
    """A word of 32-bit length, or one that is an instruction but for one bit of its opcode, funct3 or funct7."""
    while True:
        w = rng.getrandbits(32) | 3
        if rng.random() < 0.5:
            name = rng.choice(OPERATIONS)
            near = FIXED[name] if name in FIXED else word(
                name, rng.randrange(32), rng.randrange(32), rng.randrange(32), 2 * rng.randrange(16))
            w = near ^ 1 << rng.choice([*range(7), 12, 13, 14, *range(25, 32)])
        if operation(w) is None and not foreign(w):
            return w


def traps():
    for cause, trapping in (("1", "jal x0, 4096"), ("2", ".word 0"), ("3", "ebreak"), ("11", "ecall"), ("0", "jal x0, 6")):
        # a handler that returns to the same instruction, and one that does not
        yield written(f"cause {cause} again and again", f"""
            addi x1, x0, 1
            {trapping}
            addi x1, x0, 2
        handler: addi x2, x2, 1
            add x3, x2, x1
            mret
        """, vector="handler", limit=24)
        yield written(f"cause {cause} left by a jump", f"""
            addi x1, x0, 40
            div x2, x1, x1
            {trapping}
            addi x1, x0, 2
        handler: addi x4, x4, 1
            add x5, x1, x2
            jal x0, out
        out: addi x6, x5, 1
            mret
        """, vector="handler", limit=24)
        # the vector is the word after the one that traps: what was fetched there before is still to be dropped
        yield written(f"cause {cause} to the next word", f"""
            addi x1, x0, 100
            addi x2, x0, 7
            div x3, x1, x2
            mul x4, x3, x3
            {trapping}
        after: addi x5, x5, 1
            rem x6, x1, x2
            add x7, x6, x5
            slti x8, x5, 3
            beq x8, x0, 8
            mret
            addi x9, x0, 9
        """, vector="after", limit=40)
        # a trap within a handler takes MIE down for one return more
        yield written(f"cause {cause} in a handler", f"""
            addi x1, x1, 1
            {trapping}
            addi x1, x1, 1
        handler: addi x2, x2, 1
            slti x3, x2, 3
            beq x3, x0, back
            {trapping}
        back: mret
        """, vector="handler", limit=40, line=[(3, True), (14, False), (22, True)])
        # it is on the way that is not gone
        yield written(f"cause {cause} passed over", f"""
            li x1, 1000000
            li x2, 77
        loop: div x3, x1, x2
            bne x3, x0, over
            {trapping}
            mret
        over: mul x4, x3, x2
            sub x1, x1, x4
            addi x5, x5, 1
            addi x1, x1, 2000
            slti x6, x5, 6
            bne x6, x0, loop
            {trapping}
        """, vector="64", limit=70)


def illegal(rng):
    """Each word traps; the handler goes on with the next by a jump through a register."""
    before, labels = assemble("""
            jal x0, begin
        handler: addi x1, x1, 4
            jalr x2, 0(x1)
        begin: addi x1, x0, 16
    """)
    words = ILLEGAL + [illegal_word(rng) for _ in range(60)]
    for at in range(0, len(words), 8):
        some = words[at:at + 8]
        yield Program(f"illegal words {at}", before + some, 0, labels["handler"], [], 3 + 3 * len(some))


def ends():
    """Programs that are as short, as long or as far away as can be."""
    yield Program("no words", [], limit=4)
    yield Program("no words, elsewhere", [], 0x1000, 0xfffffffc, limit=4)
    yield Program("one word", [word("addi", 1, 0, imm=5)], limit=6)
    yield Program("one word and back", [word("jal", 1, imm=0)], limit=6)
    yield Program("one return", [word("mret")], limit=6)
    yield Program("begins behind its end", [word("addi", 1, 1, imm=1), word("mret")], 8, 0, limit=12)
    yield Program("begins far away", [word("addi", 1, 1, imm=1), word("mret")], LEAST, 0, [(1, True), (4, False)], 12)
    yield Program("handler outside", [word("ecall")], 0, 0xfffffffc, limit=6)
    yield Program("handler at the last word", [word("addi", 3, 3, imm=-1), word("ecall"), word("mret")], 0, 8, limit=12)
    full = [word("addi", 1 + i % 31, 1 + (i + 7) % 31, imm=i) for i in range(1024)]
    yield Program("full, from near its end", full, 4 * 1000, 4 * 1020, limit=40)
    yield Program("full, around its end", full[:1023] + [word("jal", 1, imm=-4092)], 4 * 1016, 0, [(10, True), (12, False)], 40)
    yield Program("runs over its end", [word("mul", 1, 1, 1), word("divu", 2, 1, 1)] * 3, 0, 4, limit=30)


def interrupts(rng):
    straight = """
            addi x1, x0, 100
            addi x2, x0, 3
            div x3, x1, x2
            mul x4, x3, x2
            sub x5, x1, x4
            rem x6, x1, x2
            beq x5, x6, same
            ebreak
        same: jal x7, on
            ecall
        on: divu x8, x1, x5
            addi x0, x8, 1
            sltu x9, x5, x8
            jal x0, over
        handler: mret
        over: addi x10, x10, 1
            bne x10, x2, same
            mul x11, x10, x10
    """
    for after in range(0, 24):
        # for one retirement only, at each place of the program
        yield written(f"line up at {after}", straight, 50, [(after, True), (after + 1, False)], vector="handler")
    for after in (0, 5, 11):
        yield written(f"line up from {after} on", straight, 40, [(after, True)], vector="handler")
    yield written("line down before it counts", straight, 40, [(0, False), (7, True), (9, False), (10, True), (10 + 6, False)],
                  vector="handler")
    counting = """
            addi x1, x0, 1
        loop: mul x1, x1, x2
            addi x1, x1, 3
            div x3, x1, x2
            addi x2, x2, 1
            bltu x2, x4, loop
            jal x0, loop
        handler: addi x31, x31, 1
            mul x30, x31, x31
            add x29, x29, x30
            mret
    """
    for every in (2, 3, 5, 7, 11, 13):
        moves, up, place = [], True, rng.randrange(4)
        while place < 110:
            moves.append((place, up))
            up, place = not up, place + 1 + rng.randrange(every)
        yield written(f"counting handler, line moves by {every}", counting, 110, moves, vector="handler")
    nested = """
            addi x1, x1, 1
            addi x1, x1, 1
            jal x0, -8
        handler: addi x2, x2, 1
            andi x3, x2, 1
            beq x3, x0, 8
            ecall                  # once more into the handler, with MIE 0
            mret
    """
    for after in (0, 1, 2, 9):
        yield written(f"call in a handler, line up from {after}", nested, 60, [(after, True), (after + 25, False)],
                      vector="handler")
    for trapping in ("ecall", "ebreak", ".word 0", "jal x0, 2"):
        # a trap is no place for an interrupt, which has to wait for a return
        yield written(f"line up at a trap, {trapping}", f"""
            addi x1, x1, 1
            {trapping}
            addi x1, x1, 2
        handler: addi x2, x2, 1
            slti x3, x2, 2
            bne x3, x0, 8
            jal x0, out
            mret
        out: addi x4, x4, 1
            mret
        """, 40, [(1, True), (18, False), (25, True)], vector="handler")
    yield written("interrupt at a return to the next word", """
            addi x1, x0, 9
            jal x2, on
        handler: mret
        on: addi x1, x1, 1
            div x3, x1, x1
            jal x0, -12
        """, 40, [(1, True), (2, False), (6, True), (12, False), (13, True), (14, False)], vector="handler")
    yield written("vector is the next word", """
            addi x1, x0, 9
            div x3, x1, x1
        handler: addi x4, x4, 1
            mul x5, x4, x1
            slti x6, x4, 20
            beq x6, x0, 8
            mret
            addi x7, x7, 1
        """, 60, [(1, True), (2, False), (7, True), (11, False)], vector="handler")


def algorithms():
    """Loops as people write them."""
    yield written("greatest common divisor", """
            li x1, 1071
            li x2, 462
        loop: beq x2, x0, done
            remu x3, x1, x2
            add x1, x2, x0
            add x2, x3, x0
            jal x0, loop
        done: ecall
        """, 60, vector="0x100")
    yield written("gcd by subtraction", """
            li x1, 252
            li x2, 105
        loop: beq x1, x2, done
            bltu x1, x2, less
            sub x1, x1, x2
            jal x0, loop
        less: sub x2, x2, x1
            jal x0, loop
        done: ebreak
        """, 80, vector="0x100")
    yield written("fibonacci", """
            addi x2, x0, 1
            addi x4, x0, 30
        loop: add x3, x1, x2
            add x1, x2, x0
            add x2, x3, x0
            addi x4, x4, -1
            bne x4, x0, loop
        """, 170, vector="0x100")
    yield written("factorial", """
            addi x1, x0, 1
            addi x2, x0, 13
        loop: mul x1, x1, x2
            addi x2, x2, -1
            blt x0, x2, loop
        """, 60, vector="0x100")
    yield written("steps to one", """
            addi x1, x0, 27
        loop: addi x2, x0, 1
            beq x1, x2, done
            addi x3, x3, 1
            andi x4, x1, 1
            bne x4, x0, odd
            srli x1, x1, 1
            jal x0, loop
        odd: slli x5, x1, 1
            add x1, x1, x5
            addi x1, x1, 1
            jal x0, loop
        done: ecall
        """, 300, vector="0x100")
    yield written("ones of a word", """
            li x1, 0xdeadbeef
        loop: beq x1, x0, done
            addi x2, x1, -1
            and x1, x1, x2
            addi x3, x3, 1
            jal x0, loop
        done: ebreak
        """, 150, vector="0x100")
    yield written("bits reversed", """
            li x1, 0x12345678
            addi x2, x0, 32
        loop: slli x3, x3, 1
            andi x4, x1, 1
            or x3, x3, x4
            srli x1, x1, 1
            addi x2, x2, -1
            bne x2, x0, loop
        """, 210, vector="0x100")
    yield written("check sum by bits", """
            li x1, 0x8badf00d
            li x2, -1
            li x5, 0xedb88320
            addi x6, x0, 32
            xor x2, x2, x1
        loop: andi x3, x2, 1
            sub x3, x0, x3
            and x3, x3, x5
            srli x2, x2, 1
            xor x2, x2, x3
            addi x6, x6, -1
            bne x6, x0, loop
            xori x2, x2, -1
        """, 240, vector="0x100")
    yield written("square root", """
            li x1, 1000003
            lui x2, 1024
            add x2, x1, x0
        loop: divu x3, x1, x2
            add x4, x2, x3
            srli x4, x4, 1
            bgeu x4, x2, done
            add x2, x4, x0
            jal x0, loop
        done: mul x5, x2, x2
        """, 150, vector="0x100")
    yield written("primes", """
            addi x1, x0, 2
        next: addi x2, x0, 2
        try: mul x3, x2, x2
            bltu x1, x3, prime
            remu x4, x1, x2
            beq x4, x0, composite
            addi x2, x2, 1
            jal x0, try
        prime: addi x5, x5, 1
            add x6, x6, x1
        composite: addi x1, x1, 1
            jal x0, next
        handler: addi x7, x7, 1
            mret
        """, 400, [(100, True), (101, False), (220, True), (224, False)], vector="handler")
    yield written("power by squaring", """
            addi x1, x0, 3
            addi x2, x0, 45
            addi x3, x0, 1
        loop: andi x4, x2, 1
            beq x4, x0, even
            mul x3, x3, x1
        even: mul x1, x1, x1
            srli x2, x2, 1
            bne x2, x0, loop
        """, 80, vector="0x100")
    yield written("random numbers", """
            li x1, 12345
            li x2, 1103515245
            li x3, 12345
            addi x7, x0, 40
        loop: mul x1, x1, x2
            add x1, x1, x3
            srli x4, x1, 16
            sra x5, x1, x4
            rem x6, x5, x3
            addi x7, x7, -1
            bge x7, x0, loop
        """, 300, vector="0x100")
    yield written("digits of a number", """
            li x1, 3141592653
            addi x2, x0, 10
        loop: remu x3, x1, x2
            divu x1, x1, x2
            slli x4, x4, 4
            or x4, x4, x3
            bne x1, x0, loop
        """, 80, vector="0x100")
    yield written("calls and returns", """
            addi x10, x0, 4
        again: jal x1, square
            jal x1, twice
            addi x10, x11, -7
            slti x12, x10, 2000
            bne x12, x0, again
            ecall
        square: mul x11, x10, x10
            jalr x0, 0(x1)
        twice: add x5, x1, x0
            jal x1, add
            jalr x0, 0(x5)
        add: add x11, x11, x11
            jalr x0, 0(x1)
        handler: addi x31, x31, 1
            mret
        """, 100, [(20, True), (21, False), (33, True), (34, False)], vector="handler")


class RandomCode:
    """Random code: its choices are weighed so that runs are long and operands close to each other's writers."""

    def __init__(self, rng):
        self.rng = rng
        self.size = rng.choice([24, 40, 60])
        # few registers make many dependencies
        self.names = rng.choice([[1, 2, 3], [1, 2, 3, 4, 5, 6], list(range(32)), [0, 1, 2, 30, 31]])
        self.slow = rng.choice([0.05, 0.3, 0.6])
        self.wild = rng.choice([0, 0, 0.02, 0.06])

    def register(self):
        return self.rng.choice(self.names)

    def instruction(self, place):
        rng = self.rng
        draw = rng.random()
        rd, a, b = self.register(), self.register(), self.register()
        if draw < self.wild:
            return rng.choice([FIXED["ecall"], FIXED["ebreak"], FIXED["mret"], illegal_word(rng),
                               word("jalr", rd, a, imm=rng.randrange(-2048, 2048)),
                               word("jal", rd, imm=2 * rng.randrange(-20, 20)),
                               word(rng.choice(list(BRANCH)), 0, a, b, 2 * rng.randrange(-20, 20))])
        if rng.random() < self.slow:
            return word(rng.choice(SLOW), rd, a, b)
        draw = rng.random()
        if draw < 0.12:
            far = rng.choice([8, 8, 12, 16, 4]) if rng.random() < 0.85 else -4 * rng.randrange(1, 8)
            return word(rng.choice(list(BRANCH)), 0, a, b, far)
        if draw < 0.16:
            return word("jal", rd, imm=rng.choice([4, 8, 12, 16]))
        if draw < 0.19:
            # an address within the program
            return word("jalr", rd, 0, imm=min(2047, 4 * place + rng.choice([4, 8, 9, 12])))
        if draw < 0.27:
            return word(rng.choice(list(UPPER)), rd, imm=rng.choice([0, 1, 0x80000, 0xfffff, rng.getrandbits(20)]))
        if draw < 0.37:
            return word(rng.choice(list(SHIFT)), rd, a, imm=rng.choice([0, 1, 31, rng.randrange(32)]))
        if draw < 0.65:
            return word(rng.choice(list(IMMEDIATE)), rd, a, imm=rng.choice([*IMMEDIATES, rng.randrange(-2048, 2048)]))
        return word(rng.choice(list(REGISTER)), rd, a, b)

    def words(self):
        begin = [w for name in self.names[:6] if name
                 for w in load_constant(name, self.rng.choice([*EDGES, self.rng.getrandbits(32)]))]
        body = [self.instruction(len(begin) + i) for i in range(self.size)]
        return begin + body

    def handler(self, before):
        """Returns, but each fourth time it goes back to the middle of the program instead."""
        middle = -4 * (before + 3 - self.rng.randrange(before))
        return [word("addi", 29, 29, imm=1), word("andi", 28, 29, imm=3), word("bne", 0, 28, 0, 8),
                word("jal", 27, imm=middle), word("mret")]


def random_programs(rng, count):
    for number in range(count):
        code = RandomCode(rng)
        words = code.words()
        vector = 4 * len(words) if rng.random() < 0.8 else 4 * rng.randrange(len(words))
        # behind the body: a way back to the start, so that runs do not end early
        words += code.handler(len(words))
        moves, up, place = [], True, rng.randrange(20)
        if rng.random() < 0.6:
            while place < 110:
                moves.append((place, up))
                up, place = not up, place + 1 + rng.randrange(rng.choice([2, 12]))
        yield Program(f"random {number}", words, 0, vector, moves, rng.choice([70, 110]))


def programs(rng):
    """All of them, in the order that they are recorded in."""
    yield from operation_tables()
    yield from jumps()
    yield from chains(rng)
    yield from traps()
    yield from illegal(rng)
    yield from ends()
    yield from interrupts(rng)
    yield from algorithms()
    yield from random_programs(rng, 100)
