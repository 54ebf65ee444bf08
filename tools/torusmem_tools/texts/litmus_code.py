"""The instructions of litmus tests that scripts of the machine can say, of x86 and of RISC-V (texts/litmus.py)."""
from __future__ import annotations

import re
from dataclasses import dataclass, field
from typing import Callable, Dict, List, Tuple

from torusmem_tools.model.operations import MASK, Operation


class BadLine(Exception):
    """An instruction that no script can say: why."""


NUMBER = re.compile(r"-?(?:0|[1-9][0-9]*|0x[0-9a-fA-F]+)")
BRANCHES = re.compile(r"(?:J[A-Z]+|LOOP\w*|CMP\w*|TEST\w*|CALL|RET|B(?:EQ|NE|LT|GE|LTU|GEU|EQZ|NEZ|LEZ|GEZ|LTZ|GTZ)|J|JAL|JALR)\b|\w+:", re.I)
A_BRANCH = "a branch, and a script of the machine has none"
AN_ADDRESS = "an address that is reckoned, and a script of the machine names its words"
A_VALUE = "a value that comes of a load; a script of the machine has numbers"
A_FENCE = "a weaker fence, and the machine has full ones alone"


@dataclass
class Thread:
    """A thread: its operations, and what each register holds: a number, or the reply of operation k as -k - 1."""

    number: int
    opened: Dict[str, str]
    operations: List[Operation] = field(default_factory=list)
    registers: Dict[str, int] = field(default_factory=dict)
    words: Dict[str, str] = field(default_factory=dict)

    def add(self, kind: str, word: str, values: Tuple[int, ...], openings: Dict[str, int], into: str = "") -> None:
        """Adds an operation on a word, whose reply goes into a register."""
        openings.setdefault(word, 0)
        self.set(into, -len(self.operations) - 1)
        self.operations.append(Operation(self.number, len(self.operations), kind, list(openings).index(word), values))

    def fence(self) -> None:
        self.operations.append(Operation(self.number, len(self.operations), "fence", 0, ()))

    def set(self, register: str, held: int) -> None:
        if register:
            self.opened.pop(register.upper(), None)
            self.registers[register.upper()] = held

    def value(self, word: str) -> int:
        """The number that a register holds."""
        name = word.upper()
        held = self.registers.get(name)
        if held is None:
            return self.opened_number(name)
        if held < 0:
            raise BadLine(A_VALUE)
        return held

    def opened_number(self, name: str) -> int:
        """The number with which a register opens: 0 if nothing says one."""
        word = self.opened.get(name, "0")
        if not NUMBER.fullmatch(word):
            raise BadLine(f"{name.lower()} holds the address of {word}, and this wants a number")
        return int(word, 0) & MASK

    def address(self, register: str) -> str:
        """The word whose address a register holds."""
        word = self.opened.get(register.upper(), "")
        if not word or NUMBER.fullmatch(word):
            raise BadLine(AN_ADDRESS)
        return word

    def end(self) -> None:
        """Lets each register that is never set hold its opening number."""
        for register, word in self.opened.items():
            if NUMBER.fullmatch(word) and register not in self.registers:
                self.registers[register] = self.opened_number(register)


# Takes an instruction of a thread, with the words that the test has so far.
Dialect = Callable[[Thread, str, Dict[str, int]], None]
# Of x86 the operation of a locked instruction.
LOCKED = {"ADD": "add", "AND": "and", "OR": "or", "XOR": "xor"}
# Of RISC-V that of an atomic one.
ATOMICS = {"swap": "swap", "add": "add", "and": "and", "or": "or", "xor": "xor", "maxu": "max", "minu": "min"}


def place(text: str) -> str:
    """The word of an x86 operand in brackets; empty for another operand."""
    found = re.fullmatch(r"(?:DWORD PTR |QWORD PTR )?\[\s*(.*?)\s*\]", text, re.I)
    if found and not re.fullmatch(r"[a-z_]\w*", found[1], re.I):
        raise BadLine(AN_ADDRESS)
    return found[1] if found else ""


def constant(text: str) -> int:
    """The number that a text spells; a negative one from 2^64 down."""
    if not NUMBER.fullmatch(text):
        raise BadLine(f"{text} is no number")
    return int(text, 0) & MASK


def number_of(thread: Thread, text: str) -> int:
    """The number of an x86 operand: `$1`, or that of a register."""
    return constant(text[1:]) if text.startswith("$") else thread.value(text)


def x86(thread: Thread, text: str, openings: Dict[str, int]) -> None:
    """Takes an instruction of x86, in the order of Intel: the target first."""
    if BRANCHES.match(text):
        raise BadLine(A_BRANCH)
    name, _, rest = re.sub(r"\s+", " ", text).partition(" ")
    is_locked = name.upper() == "LOCK"
    if is_locked:
        name, _, rest = rest.partition(" ")
    name, operands = name.upper(), [it.strip() for it in rest.split(",")] if rest else []
    if name == "MFENCE" and not operands:
        thread.fence()
    elif name in ("SFENCE", "LFENCE"):
        raise BadLine(A_FENCE)
    elif name in ("MOV", "MOVL", "MOVQ") and len(operands) == 2 and not is_locked:
        moved(thread, operands, openings)
    elif name == "XCHG" and len(operands) == 2:
        word = place(operands[0]) or place(operands[1])
        register = operands[1] if place(operands[0]) else operands[0]
        needs(word, "an XCHG of two registers")
        thread.add("swap", word, (thread.value(register),), openings, register)
    else:
        locked(thread, name, operands, is_locked, openings)


def needs(word: str, what: str) -> None:
    """Refuses an instruction that has no word."""
    if not word:
        raise BadLine(f"{what} isn't read")


def moved(thread: Thread, operands: List[str], openings: Dict[str, int]) -> None:
    """Takes a MOV: a load, a store, or a number into a register."""
    target, source = operands
    if place(target):
        thread.add("store", place(target), (number_of(thread, source),), openings)
    elif place(source):
        thread.add("load", place(source), (), openings, target)
    else:
        thread.set(target, number_of(thread, source))


def locked(thread: Thread, name: str, operands: List[str], is_locked: bool, openings: Dict[str, int]) -> None:
    """Takes a locked instruction of x86."""
    word = place(operands[0]) if operands else ""
    if not is_locked or not word:
        raise BadLine("an instruction that isn't read: MOV, MFENCE, XCHG, and LOCK with INC, ADD, AND, OR, XOR, XADD or CMPXCHG are")
    if name == "INC" and len(operands) == 1:
        thread.add("add", word, (1,), openings)
    elif name in LOCKED and len(operands) == 2:
        thread.add(LOCKED[name], word, (number_of(thread, operands[1]),), openings)
    elif name == "XADD" and len(operands) == 2:
        thread.add("add", word, (thread.value(operands[1]),), openings, operands[1])
    elif name == "CMPXCHG" and len(operands) == 2:
        thread.add("cas", word, (thread.value("EAX"), thread.value(operands[1])), openings, "EAX")
    else:
        raise BadLine("a locked instruction that isn't read")


def riscv(thread: Thread, text: str, openings: Dict[str, int]) -> None:
    """Takes an instruction of RISC-V."""
    if BRANCHES.match(text):
        raise BadLine(A_BRANCH)
    name, _, rest = re.sub(r"\s+", " ", text.lower()).partition(" ")
    operands = [it.strip() for it in rest.split(",")] if rest else []
    if name == "fence":
        if operands not in ([], ["rw", "rw"], ["iorw", "iorw"]):
            raise BadLine(A_FENCE)
        thread.fence()
    elif name in ("lw", "ld", "sw", "sd") and len(operands) == 2:
        word = based(thread, operands[1])
        if name[0] == "l":
            thread.add("load", word, (), openings, operands[0])
        else:
            thread.add("store", word, (number_in(thread, operands[0]),), openings)
    elif name in ("li", "mv") and len(operands) == 2:
        thread.set(operands[0], constant(operands[1]) if name == "li" else number_in(thread, operands[1]))
    elif name in ("ori", "addi") and len(operands) == 3 and operands[1] in ("x0", "zero"):
        thread.set(operands[0], constant(operands[2]))
    else:
        atomic(thread, name, operands, openings)


def number_in(thread: Thread, register: str) -> int:
    """The number in a register of RISC-V."""
    return 0 if register in ("x0", "zero") else thread.value(register)


def based(thread: Thread, operand: str) -> str:
    """The word of an operand such as `0(x6)` or `(x6)`."""
    found = re.fullmatch(r"(0?)\((\w+)\)", operand)
    if not found:
        raise BadLine(AN_ADDRESS)
    return thread.address(found[2])


def atomic(thread: Thread, name: str, operands: List[str], openings: Dict[str, int]) -> None:
    """Takes an atomic of RISC-V."""
    found = re.fullmatch(r"amo(\w+)\.[wd](\..*)?", name)
    if not found or found[1] not in ATOMICS or len(operands) != 3:
        raise BadLine("an instruction that isn't read: lw, sw, ld, sd, li, mv, fence and the unsigned atomics are")
    if found[2]:
        raise BadLine("an annotation, and the operations of the machine have none")
    into = "" if operands[0] in ("x0", "zero") else operands[0]
    thread.add(ATOMICS[found[1]], based(thread, operands[2]), (number_in(thread, operands[1]),), openings, into)


DIALECTS: Dict[str, Dialect] = {"X86": x86, "RISCV": riscv}
