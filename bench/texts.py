#!/usr/bin/env python3
"""The texts that bench/shapes and bench/llc measure.

    bench/texts.py SHAPE BYTES        prints the text of a shape, of at most so many bytes
    bench/texts.py                    prints the names of the shapes

A shape is a function that makes the text of one function of Machine IR, or of a few, from a count. Its text of so many
bytes is its longest function within them and within what gisel takes of one function, again and again, and last a
shorter one. What a shape's sentence says of the program is what made it one: a way to be slow that was met or feared.
"""
import sys
from dataclasses import dataclass
from typing import Callable

OPERANDS = 262_144  # of a function
BLOCKS = 65_535  # of a function
FUNCTIONS = 65_535  # of a text
REGISTERS = 4_194_304  # the numbers that a register may have
BYTES = 8_388_608  # of a text
PROBE = 64  # a count from which a shape's bytes are guessed

FUNCTION = "---\nname: f\nbody: |\n"
HEAD = FUNCTION + "  bb.0:\n"
COPIED = HEAD + "    liveins: $x10\n    %0:_(s32) = COPY $x10\n"
RETURN = "    PseudoRET\n"


@dataclass
class Shape:
    """A way to make a function, how great its count may be, and the status of gisel on it, if it is one at all sizes."""

    make: Callable[[int], str]
    most: int
    status: int | None

    def fitting(self, size):
        """The function of the greatest count, or of one near it, that is at most so many bytes long, and its count."""
        short = len(self.make(PROBE))
        unit = len(self.make(2 * PROBE)) - short
        count = min(self.most, PROBE + (size - short) * PROBE // unit)
        text = self.make(count)
        while len(text) > size:
            count = PROBE + (count - PROBE) * (size - short) // (len(text) - short)
            text = self.make(count)
        return text, count

    def text(self, size):
        """Functions of this shape, of at most so many bytes: one, where it may be so long."""
        longest, count = self.fitting(size)
        if count < self.most:
            return longest
        rest = size % len(longest)
        return longest * (size // len(longest)) + (self.fitting(rest)[0] if rest >= len(self.make(PROBE)) else "")


SHAPES = {}

# shapes that pass the bounds of bench/shapes, which tries them by name alone
DEAR = {"ahead_double", "arms_double"}


def shape(most, status):
    """Notes a function as a shape."""
    return lambda make: SHAPES.setdefault(make.__name__, Shape(make, most, status)).make


def valid(most):
    """A shape that gisel prints, of a count up to `most`."""
    return shape(most, 0)


def refused(most):
    """A shape that gisel refuses, of a count up to `most`."""
    return shape(most, 1)


def each(line, numbers):
    """A line for each number."""
    return "".join([line % number for number in numbers])


def filling(count):
    """As many definitions, from %1 on, with one operand each."""
    return each("    %%%d:_(s32) = G_IMPLICIT_DEF\n", range(1, count + 1))


def accumulated(count):
    """Sums of a constant and the sum before, from %1 on: a constant has the odd number, its sum the next."""
    unit = "    %%%d:_(s32) = G_CONSTANT i32 1\n    %%%d:_(s32) = G_ADD %%%d, %%%d\n"
    return "".join([unit % (k + 1, k + 2, k, k + 1) for k in range(0, 2 * count, 2)])


def summed(blocks, first):
    """In each block its own register, the sum of the one of the block before and %0; in the first of %0 twice."""
    before = lambda b: b - 1 if b > first else 0
    return "".join([f"  bb.{b}:\n    %{b}:_(s32) = G_ADD %{before(b)}, %0\n" for b in blocks])


# ══ Without branches ══


@valid(OPERANDS // 3 - 1)
def sums(count):
    """The measure: one block of sums."""
    unit = "    %%%d:_(s32) = G_ADD %%%d, %%0\n"
    return COPIED + "".join([unit % (k + 1, k) for k in range(count)]) + RETURN


@valid(OPERANDS // 5 - 1)
def acc_settled(count):
    """Sums of a constant and the sum before: what the shapes `acc_..` are to be compared with."""
    return COPIED + accumulated(count) + RETURN


@refused(OPERANDS // 5 - 1)
def acc_double(count):
    """The same, and at the end the register %1 is defined again."""
    return COPIED + accumulated(count) + "    %1:_(s32) = G_CONSTANT i32 1\n" + RETURN


@refused(OPERANDS // 5 - 1)
def acc_typo(count):
    """The same, and at the end a register is used that nothing defines."""
    last = 2 * count
    return COPIED + accumulated(count) + f"    %{last + 1}:_(s32) = G_ADD %{last}, %{last + 2}\n" + RETURN


@valid(OPERANDS // 4 - 1)
def divisions(count):
    """As many fillers, and then divisions, whose operands have a rule of their own."""
    lines = each("    %%%d:_(s32) = G_UDIV %%0, %%0\n", range(count + 1, 2 * count + 1))
    return COPIED + filling(count) + lines + RETURN


@valid(OPERANDS // 4 - 1)
def calls(count):
    """As many fillers, and then calls, each of which leaves few physical registers as they were."""
    call = "    PseudoCALL target-flags(riscv-call) @g, csr_ilp32_lp64, implicit-def $x1\n"
    return COPIED + filling(count) + call * count + RETURN


@valid(OPERANDS // 3 - 2)
def physical(count):
    """A physical register is defined behind fillers, and read twice as often at the end."""
    reads = ", implicit $x11" * (2 * count)
    return COPIED + filling(count) + "    $x11 = COPY %0\n    PseudoRET implicit $x11" + reads + "\n"


@valid(OPERANDS // 2 - 1)
def liveins(count):
    """Copies of the last of seven times as many liveins."""
    head = HEAD + "    liveins: " + "$x9," * (7 * count) + "$x10\n"
    return head + each("    %%%d:_(s32) = COPY $x10\n", range(count)) + RETURN


@valid(PROBE)
def high_registers(count):
    """Short functions, each of whose registers has a number far from those of the others."""
    numbers = [(REGISTERS - 1 - 65_521 * k) % REGISTERS for k in range(count)]
    return HEAD + each("    %%%d:_(s32) = G_IMPLICIT_DEF\n", numbers) + RETURN


@refused(BYTES)
def unmerge(count):
    """An unmerge of more parts than are taken, and a merge of three times as many uses of its last."""
    parts = each("%%%d:_(s1),", range(10, 10 + count))
    uses = ",%1" * (3 * count)
    return COPIED + f"    {parts}%1:_(s1) = G_UNMERGE_VALUES %0(s32)\n    %2:_(s32) = G_MERGE_VALUES %1{uses}\n"


# one of each opcode that stands before selection: %0 is a number, %1 an address, %2 a bit, {0} and so on are fresh
MIXED = """  bb.{block}:
    %{0}:_(s32) = G_PHI %0(s32), %bb.{before}
    %{1}:_(s32) = G_IMPLICIT_DEF
    %{2}:_(s32) = G_CONSTANT i32 -7
    %{3}:_(s32) = G_FREEZE %{1}
    %{4}:_(p0) = G_FRAME_INDEX %stack.0
    %{5}:_(p0) = G_GLOBAL_VALUE @g
    %{6}:_(p0) = G_PTR_ADD %1, %0(s32)
    %{7}:_(s32) = G_PTRTOINT %1(p0)
    %{8}:_(p0) = G_INTTOPTR %0(s32)
    %{9}:_(s8) = G_TRUNC %0(s32)
    %{10}:_(s64) = G_ANYEXT %0(s32)
    %{11}:_(s64) = G_ZEXT %0(s32)
    %{12}:_(s64) = G_SEXT %0(s32)
    %{13}:_(s32) = G_SEXT_INREG %0, 8
    %{14}:_(s64) = G_MERGE_VALUES %0(s32), %{2}(s32)
    %{15}:_(s32), %{16}:_(s32) = G_UNMERGE_VALUES %{14}(s64)
    %{17}:_(s32) = G_ADD %0, %{2}
    %{18}:_(s32) = G_SUB %0, %{17}
    %{19}:_(s32) = G_MUL %0, %{18}
    %{20}:_(s32) = G_AND %0, %{19}
    %{21}:_(s32) = G_OR %0, %{20}
    %{22}:_(s32) = G_XOR %0, %{21}
    %{23}:_(s32) = G_UDIV %0, %{22}
    %{24}:_(s32) = G_SDIV %0, %{23}
    %{25}:_(s32) = G_UREM %0, %{24}
    %{26}:_(s32) = G_SREM %0, %{25}
    %{27}:_(s32) = G_SHL %0, %{26}(s32)
    %{28}:_(s32) = G_LSHR %0, %{27}(s32)
    %{29}:_(s32) = G_ASHR %0, %{28}(s32)
    %{30}:_(s32), %{31}:_(s1) = G_UADDO %0, %{29}
    %{32}:_(s32), %{33}:_(s1) = G_USUBO %0, %{30}
    %{34}:_(s32), %{35}:_(s1) = G_UADDE %0, %{32}, %{33}
    %{36}:_(s32), %{37}:_(s1) = G_USUBE %0, %{34}, %{35}
    %{38}:_(s32) = G_UMULH %0, %{36}
    %{39}:_(s32) = G_SMULH %0, %{38}
    %{40}:_(s1) = G_ICMP intpred(slt), %0(s32), %{39}
    %{41}:_(s32) = G_SELECT %{40}(s1), %0, %{39}
    %{42}:_(s32) = G_SMIN %0, %{41}
    %{43}:_(s32) = G_SMAX %0, %{42}
    %{44}:_(s32) = G_UMIN %0, %{43}
    %{45}:_(s32) = G_UMAX %0, %{44}
    %{46}:_(s32) = G_ABS %{45}
    %{47}:_(s32) = G_CTLZ %{46}(s32)
    %{48}:_(s32) = G_CTTZ %{47}(s32)
    %{49}:_(s32) = G_CTPOP %{48}(s32)
    %{50}:_(s32) = G_CTLZ_ZERO_UNDEF %{49}(s32)
    %{51}:_(s32) = G_CTTZ_ZERO_UNDEF %{50}(s32)
    %{52}:_(s32) = G_BSWAP %{51}
    %{53}:_(s32) = G_FSHL %0, %{52}, %{51}(s32)
    %{54}:_(s32) = G_FSHR %0, %{53}, %{51}(s32)
    %{55}:_(s32) = G_ROTL %0, %{54}(s32)
    %{56}:_(s32) = G_ROTR %0, %{55}(s32)
    %{57}:_(s32) = G_LOAD %1(p0) :: (load (s32))
    %{58}:_(s32) = G_ZEXTLOAD %1(p0) :: (load (s8))
    %{59}:_(s32) = G_SEXTLOAD %1(p0) :: (load (s16))
    G_STORE %{56}(s32), %1(p0) :: (store (s32))
    ADJCALLSTACKDOWN 0, 0, implicit-def $x2, implicit $x2
    $x10 = COPY %0(s32)
    PseudoCALL target-flags(riscv-call) @g, csr_ilp32_lp64, implicit-def $x1, implicit $x10
    ADJCALLSTACKUP 0, 0, implicit-def $x2, implicit $x2
    G_BRCOND %2(s1), %bb.{after}
    G_BR %bb.{after}
"""
FRESH = 60  # registers that each of these blocks defines


@valid(OPERANDS // 230)
def mix(count):
    """Blocks that have each opcode of those before selection."""
    keys = "name: f\ntracksRegLiveness: true\nstack:\n  - {id: 0, size: 8, alignment: 4}\n"
    given = "    liveins: $x10, $x11\n    %0:_(s32) = COPY $x10\n    %1:_(p0) = COPY $x11\n"
    given += "    %2:_(s1) = G_TRUNC %0(s32)\n    G_BR %bb.1\n"
    units = []
    for block in range(1, count + 1):
        first = 3 + FRESH * (block - 1)
        units.append(MIXED.format(*range(first, first + FRESH), block=block, before=block - 1, after=block + 1))
    return f"---\n{keys}body: |\n  bb.0:\n{given}" + "".join(units) + f"  bb.{count + 1}:\n" + RETURN


# ══ Blocks ══


@valid(OPERANDS // 5 - 2)
def acc_unreached(count):
    """Sums of a constant, and a block that isn't reached with one use."""
    last = 2 * count
    block = f"  bb.1:\n    %{last + 1}:_(s32) = G_ADD %{last}, %{last}\n"
    return COPIED + accumulated(count) + RETURN + block + RETURN


@valid(OPERANDS // 5 - 3)
def acc_irreducible(count):
    """Sums of a constant, and behind them a loop of two blocks that is entered at both."""
    test = 2 * count + 1
    entered = f"    %{test}:_(s1) = G_TRUNC %0(s32)\n    G_BRCOND %{test}(s1), %bb.1\n    G_BR %bb.3\n"
    loop = "  bb.1:\n    G_BR %bb.2\n  bb.2:\n    G_BR %bb.3\n  bb.3:\n    G_BR %bb.2\n"
    return COPIED + accumulated(count) + entered + loop


@refused(BLOCKS - 1)
def chain_typo(count):
    """A chain of blocks, and in the last one a register is used that nothing defines."""
    return COPIED + each("  bb.%d:\n", range(1, count)) + "    $x10 = COPY %7\n" + RETURN


@valid(BLOCKS - 4)
def chain_late(count):
    """A chain of blocks behind a loop that is entered at both blocks; each uses the register of the block before."""
    entered = "    %1:_(s1) = G_TRUNC %0(s32)\n    G_BRCOND %1(s1), %bb.1\n    G_BR %bb.3\n  bb.1:\n    G_BR %bb.2\n"
    loop = "  bb.2:\n    G_BRCOND %1(s1), %bb.3\n    G_BR %bb.4\n  bb.3:\n    G_BR %bb.2\n"
    return COPIED + entered + loop + summed(range(4, count + 4), 4) + RETURN


@valid(BLOCKS - 2)
def chain_unreached(count):
    """A chain of blocks that aren't reached; each uses the register of the reached one."""
    return COPIED + RETURN + "".join([f"  bb.{b}:\n    %{b}:_(s32) = G_ADD %0, %0\n" for b in range(1, count + 1)]) + RETURN


@refused(OPERANDS // 4 - 2)
def chain_double(count):
    """A chain of blocks with a sum each, and in the last one every register is defined again."""
    again = each("    %%%d:_(s32) = G_IMPLICIT_DEF\n", range(1, count + 1))
    return COPIED + summed(range(1, count + 1), 1) + again + RETURN


@refused(OPERANDS // 8 - 2)
def unavailable(count):
    """A register for each of as many sums, defined in both arms behind a test; and where the arms meet, the sums."""
    head = COPIED + "    %1:_(s1) = G_TRUNC %0(s32)\n    G_BRCOND %1(s1), %bb.2\n  bb.1:\n"
    arm = each("    %%%d:_(s32) = G_IMPLICIT_DEF\n", range(2, count + 2))
    uses = "".join([f"    %{count + k}:_(s32) = G_ADD %{k}, %{k}\n" for k in range(2, count + 2)])
    return head + arm + "    G_BR %bb.3\n  bb.2:\n" + arm + "  bb.3:\n" + uses + RETURN


@refused(OPERANDS // 5 - 3)
def loop_double(count):
    """A loop of sums of a constant and the sum before, at whose end the first register is defined again."""
    last = 2 * count
    test = f"    %{last + 1}:_(s1) = G_TRUNC %{last}(s32)\n"
    again = f"  bb.2:\n    %1:_(s32) = G_CONSTANT i32 1\n    G_BRCOND %{last + 1}(s1), %bb.1\n"
    return COPIED + "  bb.1:\n" + accumulated(count) + test + again + RETURN


@refused(OPERANDS // 6 - 2)
def loop_double_each(count):
    """A loop of sums, each of the sum before, at whose end each of them is defined again."""
    chain = "".join([f"    %{k + 1}:_(s32) = G_ADD %{k}, %0\n" for k in range(count)])
    again = each("    %%%d:_(s32) = G_ADD %%0, %%0\n", range(1, count + 1))
    test = f"    %{count + 1}:_(s1) = G_TRUNC %0(s32)\n"
    return COPIED + "  bb.1:\n" + chain + test + "  bb.2:\n" + again + f"    G_BRCOND %{count + 1}(s1), %bb.1\n  bb.3:\n" + RETURN


@refused(BLOCKS - 3)
def loop_double_chain(count):
    """A loop of a chain of blocks with a sum each, at whose end the first sum is defined again."""
    again = f"  bb.{count + 1}:\n    %1:_(s32) = G_ADD %0, %0\n"
    test = f"    %{count + 1}:_(s1) = G_TRUNC %0(s32)\n    G_BRCOND %{count + 1}(s1), %bb.1\n"
    return COPIED + summed(range(1, count + 1), 1) + again + test + f"  bb.{count + 2}:\n" + RETURN


@refused(OPERANDS // 5 - 3)
def arms_double(count):
    """A register for each of as many sums, defined in both arms behind a test; the sums stand in front of the second arm."""
    head = COPIED + "    %1:_(s1) = G_TRUNC %0(s32)\n    G_BRCOND %1(s1), %bb.3\n  bb.1:\n"
    arm = each("    %%%d:_(s32) = G_IMPLICIT_DEF\n", range(2, count + 2))
    uses = "".join([f"    %{count + k}:_(s32) = G_ADD %{k}, %{k}\n" for k in range(2, count + 2)])
    return head + arm + "  bb.2:\n" + uses + RETURN + "  bb.3:\n" + arm + "    G_BR %bb.2\n"


@refused(OPERANDS // 6 - 3)
def ahead_double(count):
    """Sums in front of a loop that uses all of them; at its end another register is defined again, behind it the first sum."""
    constants = f"    %{count}:_(s32) = G_CONSTANT i32 7\n    %{count + 1}:_(s1) = G_TRUNC %0(s32)\n"
    chain = "    %1:_(s32) = G_CONSTANT i32 1\n" + "".join([f"    %{k}:_(s32) = G_ADD %{k - 1}, %0\n" for k in range(2, count)])
    uses = "".join([f"    %{count + 1 + k}:_(s32) = G_ADD %{k}, %{k}\n" for k in range(1, count)])
    again = f"  bb.2:\n    %{count}:_(s32) = G_CONSTANT i32 8\n    G_BRCOND %{count + 1}(s1), %bb.1\n"
    return COPIED + chain + constants + "  bb.1:\n" + uses + again + "  bb.3:\n    %1:_(s32) = G_CONSTANT i32 2\n" + RETURN


@valid(BLOCKS - 2)
def against(count):
    """Blocks that are laid out against the flow; the first one names the last of the flow six times as often besides."""
    head = FUNCTION + f"  bb.0:\n    successors: %bb.{count}" + ",%bb.1" * (6 * count) + "\n"
    blocks = [f"  bb.{b}:\n    successors: %bb.{b - 1}\n" for b in range(2, count + 1)]
    return head + "  bb.1:\n" + RETURN + "".join(blocks)


@valid(BLOCKS // 2 - 2)
def joins(count):
    """A chain of blocks, and as many others that are entered from its first and from its last block."""
    entered = each(",%%bb.%d", range(count + 1, 2 * count + 1))
    chain = each("  bb.%d:\n", range(1, count))
    last = f"  bb.{count}:\n    successors: {entered[1:]}\n"
    ends = each("  bb.%d:\n    PseudoRET\n", range(count + 1, 2 * count + 1))
    return HEAD + f"    successors: %bb.1{entered}\n" + chain + last + ends


@refused(OPERANDS // 2 - 3)
def phi(count):
    """A phi that names its one predecessor again and again."""
    entries = ", %bb.0, %0(s32)" * (count - 1)
    return COPIED + f"    G_BR %bb.1\n  bb.1:\n    %1:_(s32) = G_PHI %0(s32){entries}, %bb.0\n" + RETURN


@valid(OPERANDS // 5 - 2)
def phi_valid(count):
    """A phi with very many predecessors."""
    goal = count + 1
    tests = each("    G_BRCOND %%1(s1), %%bb.%d\n", range(1, count))
    blocks = each(f"  bb.%d:\n    G_BR %%bb.{goal}\n", range(1, goal))
    entries = each(", %%0(s32), %%bb.%d", range(1, goal))
    head = COPIED + "    %1:_(s1) = G_TRUNC %0(s32)\n" + tests + f"    G_BR %bb.{count}\n"
    return head + blocks + f"  bb.{goal}:\n    %2:_(s32) = G_PHI {entries[2:]}\n" + RETURN


@refused(BYTES)
def successors(count):
    """A block with very many successors, which aren't there."""
    return HEAD + "    successors: " + each(",%%bb.%d", range(100_000, 100_000 + count))[1:] + "\n" + RETURN


@valid(BLOCKS - 2)
def successors_there(count):
    """A block with very many successors, which are there."""
    blocks = each("  bb.%d:\n", range(1, count + 1))
    return HEAD + "    successors: " + each(",%%bb.%d", range(1, count + 1))[1:] + "\n" + blocks + RETURN


@valid(OPERANDS // 2 - 3)
def branches(count):
    """Branches to the last of three times as many successors."""
    head = HEAD + "    successors: %bb.1" + ",%bb.1" * (3 * count) + ",%bb.2\n    liveins: $x10\n"
    test = "    %0:_(s32) = COPY $x10\n    %1:_(s1) = G_TRUNC %0(s32)\n"
    return head + test + "    G_BRCOND %1(s1), %bb.2\n" * count + "  bb.1:\n" + RETURN + "  bb.2:\n" + RETURN


# ══ Numbers of registers ══


@valid(9 * 16_384)
def meeting(count):
    """Registers whose numbers meet in a table of groups of four numbers, each filled up to nine."""
    groups = 1
    while 9 * groups < count:
        groups *= 2
    near = -(-count * 4 * groups // REGISTERS)
    numbers = [start + k for start in range(0, REGISTERS, 4 * groups) for k in range(near)]
    return HEAD + each("    %%%d:_(s32) = G_IMPLICIT_DEF\n", numbers[:count]) + RETURN


@valid(OPERANDS // 2)
def spread(count):
    """Registers whose numbers stand as far from each other as they can."""
    apart = REGISTERS // max(count, 1)
    return HEAD + each("    %%%d:_(s32) = G_IMPLICIT_DEF\n", range(0, count * apart, apart)) + RETURN


@valid(FUNCTIONS)
def far(count):
    """Short functions, each with a few registers of great numbers."""
    lines = each("    %%%d:_(s32) = G_IMPLICIT_DEF\n", (1_048_575, 2_097_151, 4_194_303))
    return (HEAD + lines + RETURN) * count


# ══ Great counts of small things: these take the most memory for their bytes ══


@refused(BYTES)
def marks(count):
    """One line of marks."""
    return HEAD + "    " + "(" * count + "\n"


@valid(BYTES)
def empty_lines(count):
    """Lines without a token."""
    return HEAD + "\n" * count


@valid(BYTES)
def ir_lines(count):
    """A long IR block."""
    return "--- |\n" + "a\n" * count + "...\n"


@shape(BYTES, None)
def functions(count):
    """The shortest functions; the greatest texts have more than are taken."""
    return FUNCTION * count


@valid(BLOCKS)
def blocks(count):
    """The shortest blocks."""
    return FUNCTION + each(" bb.%d:\n", range(count))


@refused(BYTES)
def returns(count):
    """The shortest instructions."""
    return HEAD + " PseudoRET\n" * count


@valid(OPERANDS)
def definitions(count):
    """The shortest definitions."""
    return HEAD + each(" %%%d:_(s8)=G_IMPLICIT_DEF\n", range(count))


@refused(BYTES)
def one_instruction(count):
    """One instruction with more operands than are taken."""
    return HEAD + " %0:_(s64)=G_MERGE_VALUES %1" + ",%1" * count + "\n"


@valid(BYTES)
def register_entries(count):
    """Entries of registers."""
    return "---\nname: f\nregisters:\n" + each(" - {id: %d, class: _}\n", range(count)) + "body: |\n"


@valid(BYTES)
def stack_objects(count):
    """Objects of the stack."""
    return "---\nname: f\nstack:\n" + each(" - {id: %d, size: 1, alignment: 1}\n", range(count)) + "body: |\n"


def main(words):
    if not words:
        print("\n".join(SHAPES))
    elif len(words) == 2 and words[0] in SHAPES and words[1].isdecimal():
        sys.stdout.write(SHAPES[words[0]].text(int(words[1])))
    else:
        sys.exit(__doc__)


if __name__ == "__main__":
    main(sys.argv[1:])
