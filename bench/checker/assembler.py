"""Assembler text of programs, read by its table."""

import re
import struct

TOKEN = re.compile(r"[ \t\r]*(?:([A-Za-z_][A-Za-z0-9_]*)|(0x[0-9a-fA-F]+|[0-9]+)|([#\[\]+,:*()&]))")
LARGEST = 0xFFFFFFFF
FARTHEST = 255
K, LABEL = object(), object()
INDEX = ("[", "x", "+", K, "]")
PLACE = ("[", K, "]")
SCRATCH = ("M", "[", K, "]")
OPERANDS = (("#", K), 0), (("x",), 8)


def _rows():
    """Each mnemonic's forms: the tokens of its operand, and the code."""
    rows = {
        "ld": [(("#", K), 0x00), (PLACE, 0x20), (INDEX, 0x40), (SCRATCH, 0x60), (("#", "len"), 0x80)],
        "ldh": [(PLACE, 0x28), (INDEX, 0x48)],
        "ldb": [(PLACE, 0x30), (INDEX, 0x50)],
        "ldx": [(("#", K), 0x01), (SCRATCH, 0x61), (("#", "len"), 0x81)],
        "ldxb": [((4, "*", "(", "[", K, "]", "&", 15, ")"), 0xB1)],
        "st": [(SCRATCH, 0x02)],
        "stx": [(SCRATCH, 0x03)],
        "neg": [((), 0x84)],
        "ja": [((LABEL,), 0x05)],
        "ret": [(("#", K), 0x06), (("a",), 0x16)],
        "tax": [((), 0x07)],
        "txa": [((), 0x87)],
    }
    arithmetic = "add sub mul div or and lsh rsh".split() + ["mod", "xor"]
    for name, code in zip(arithmetic, (0x04, 0x14, 0x24, 0x34, 0x44, 0x54, 0x64, 0x74, 0x94, 0xA4)):
        rows[name] = [(tokens, code + more) for tokens, more in OPERANDS]
    for name, code in zip("jeq jgt jge jset".split(), (0x15, 0x25, 0x35, 0x45)):
        rows[name] = [
            (tokens + targets, code + more)
            for tokens, more in OPERANDS
            for targets in ((",", LABEL, ",", LABEL), (",", LABEL))
        ]
    return rows


ROWS = _rows()


class CodeFault(Exception):
    """The fault's name and its line, counted from 1."""


class _Form(Exception):
    pass


def tokens_of(line):
    """Words as text, numbers as numbers, the rest as characters; each with the place after it."""
    tokens, at = [], 0
    line = line.split(";")[0].rstrip(" \t\r")
    while at < len(line):
        found = TOKEN.match(line, at)
        if not found:
            raise _Form
        word, number, _ = found.groups()
        at = found.end()
        value = found.group(0).strip(" \t\r")
        if number:
            value = int(number, 16) if number.startswith("0x") else int(number)
            if value > LARGEST:
                raise _Form
        tokens.append((value, bool(word), line[at : at + 1]))
    return tokens


def fits(form, tokens):
    """The numbers and labels of an operand of this form, or None."""
    if len(form) != len(tokens):
        return None
    numbers, labels = [], []
    for wanted, (value, is_word, _) in zip(form, tokens):
        if wanted is K and isinstance(value, int):
            numbers.append(value)
        elif wanted is LABEL and is_word:
            labels.append(value)
        elif wanted is K or wanted is LABEL or wanted != value:
            return None
    return numbers, labels


def read_line(line):
    """The labels of a line, and its instruction (code, numbers, labels) or None."""
    if not line.isascii():
        raise _Form
    tokens = tokens_of(line)
    labels = []
    while len(tokens) > 1 and tokens[0][1] and tokens[1][0] == ":":
        labels.append(tokens[0][0])
        tokens = tokens[2:]
    if not tokens:
        return labels, None
    mnemonic, _, after = tokens[0]
    operand = tokens[1:]
    if operand and after not in (" ", "\t", "\r"):
        raise _Form
    for form, code in ROWS.get(mnemonic, ()):
        found = fits(form, operand)
        if found is not None:
            return labels, (code,) + found
    raise _Form


def read_lines(source):
    lines = source.split("\n")
    if lines[-1] == "":
        lines.pop()
    read = []
    for number, line in enumerate(lines, 1):
        try:
            read.append((number,) + read_line(line))
        except _Form:
            raise CodeFault("Line", number) from None
    return read


def assemble(source):
    """The program of a text, as (code, jt, jf, k)."""
    lines = read_lines(source)
    places, place = {}, 0
    for _, labels, instruction in lines:
        for label in labels:
            places.setdefault(label, place)
        place += instruction is not None
    length, program, seen = place, [], set()
    for number, labels, instruction in lines:
        for label in labels:
            if label in seen:
                raise CodeFault("Label", number)
            seen.add(label)
        if instruction is not None:
            program.append(encoded(instruction, number, len(program), places, length))
    return program


def encoded(instruction, line, place, places, length):
    code, numbers, labels = instruction
    targets = [places.get(label) for label in labels]
    if any(target is None or target <= place or target == length for target in targets):
        raise CodeFault("Label", line)
    distances = [target - place - 1 for target in targets]
    k = numbers[0] if numbers else 0
    if code == 0x05:
        return code, 0, 0, distances[0]
    if not distances:
        return code, 0, 0, k
    if any(distance > FARTHEST for distance in distances):
        raise CodeFault("FarJump", line)
    return code, distances[0], distances[1] if len(distances) > 1 else 0, k


def as_bytes(program):
    return b"".join(struct.pack("<HBBI", *instruction) for instruction in program)
