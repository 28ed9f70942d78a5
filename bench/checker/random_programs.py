"""Random programs, most of which look at what the messages have, and wrong ones."""

from . import build, programs

RET_1, RET_0 = (0x06, 1), (0x06, 0)


def look_at_word(rng, valid):
    """Compares a word, half or byte of the image with what a message has there."""
    edition = rng.choice([1, 2])
    message = rng.choice(valid)
    memory = programs.image(edition, message, set())
    code, size = rng.choice([(0x20, 4), (0x28, 2), (0x30, 1)])
    place = random_place(rng, edition, len(memory))
    if message.args and rng.random() < 0.4:
        place = 72 + 12 * rng.randrange(min(len(message.args), programs.SHOWN_ARGUMENTS)) + 4 * rng.randrange(3)
    there = int.from_bytes(memory[place : place + size], "big") if place + size <= len(memory) else 0
    jump = rng.choice([0x15, 0x25, 0x35, 0x45])
    compared = (there + rng.choice([0, 0, 0, 1, -1])) & 0xFFFFFFFF
    return build.program((code, place), (jump, rng.randint(0, 1), rng.randint(0, 1), compared), RET_1, RET_0)


def random_place(rng, edition, length):
    base = programs.SUMMARY[edition]
    return rng.choice([
        4 * rng.randrange(18),
        4 * rng.randrange(18),
        rng.choice([8, 12, 16, 20]),
        72 + 4 * rng.randrange(9),
        72 + 4 * rng.randrange(12),
        828 + 4 * rng.randrange(3),
        968 + 4 * rng.randrange(2),
        base - rng.randint(0, 4),
        base + rng.randrange(length - base),
        length - rng.randint(0, 5),
    ])


def look_at_low_bits(rng, valid):
    """Four times the low four bits of a byte."""
    edition = rng.choice([1, 2])
    memory = programs.image(edition, rng.choice(valid), set())
    place = random_place(rng, edition, len(memory))
    there = 4 * (memory[place] & 0x0F) if place < len(memory) else 0
    return build.program((0xB1, place), (0x87, 0), (0x15, 0, 1, there), RET_1, RET_0)


def look_at_many(rng, valid):
    """The count of arguments, or one of the last that the image shows."""
    long = [message for message in valid if len(message.args) >= programs.SHOWN_ARGUMENTS - 1]
    if not long:
        return look_at_low_bits(rng, valid)
    memory = programs.image(1, rng.choice(long), set())
    place = rng.choice([20, 20, 816, 824, 828, 832, 836, 840])
    return build.program((0x20, place), (0x15, 0, 1, int.from_bytes(memory[place : place + 4], "big")), RET_1, RET_0)


def for_slot(slot):
    """1 where the sender owns the name of this slot, as edition 2 shows it."""
    place = programs.OWNERSHIP + 4 * (slot // 32)
    return build.program((0x20, place), (0x45, 0, 1, 1 << slot % 32), RET_1, RET_0)


def look_at_slot(rng):
    low, word_edge, edition_edge = rng.randrange(4), rng.choice([31, 32, 33]), rng.choice([511, 512, 513, 1023])
    return for_slot(rng.choices([low, word_edge, edition_edge], [8, 1, 1])[0])


def look_at_length(rng, valid):
    length = programs.SUMMARY[rng.choice([1, 2])] + len(rng.choice(valid).raw)
    return build.program((0x80, 0), (rng.choice([0x15, 0x25, 0x35]), 0, 1, length), RET_1, RET_0)


def look_at_text(rng, valid):
    """A byte of a text, by its place in the summary."""
    place = rng.choice([24, 32, 40, 64, 76, 88])
    byte = rng.choice(rng.choice(valid).raw)
    load = [(0x20, place), (0x07, 0)] if rng.random() < 0.7 else [(0x30, place + 3), (0x02, 3), (0x61, 3)]
    code = rng.choice([0x50, 0x48, 0x40])
    return build.program(*load, (code, rng.randint(0, 3)), (0x54, 0xFF), (0x15, 0, 1, byte), RET_1, RET_0)


def random_instruction(rng, left):
    """An instruction of any row, as a rule a valid one with `left` instructions after it."""
    code = rng.choice(sorted(programs.CODES))
    jt = jf = 0
    k = rng.choice([0, 1, 2, 3, 5, 31, 0xFF, 0xFFFF, 0xFFFFFFFF, rng.getrandbits(32)])
    if code in programs.LOADS or code == 0xB1:
        k = random_place(rng, rng.choice([1, 2]), 1200)
    elif code in programs.INDIRECT_LOADS:
        k = rng.choice([0, 1, 900, 976, 0xFFFFFFFF])
    elif code in (0x60, 0x61, 0x02, 0x03):
        k = rng.randrange(4)
    elif code in (0x64, 0x74):
        k = rng.randrange(32)
    elif code in (0x34, 0x94):
        k = k or 1
    elif code == 0x05:
        k = rng.randrange(left) if left else 0
    elif code in programs.JUMPS and left:
        jt, jf = rng.randrange(left), rng.randrange(left)
    return code, jt, jf, k


def random_program(rng):
    stores = [(rng.choice([0x02, 0x03]), 0, 0, word) for word in range(4) if rng.random() < 0.75]
    count = rng.randint(1, 12)
    body = [random_instruction(rng, count - place) for place in range(count)]
    return build.program(*stores, *body, (rng.choice([0x06, 0x16]), 0, 0, rng.choice([0, 1])))


def block(rng, levels):
    """Stores, reads, and jumps round two blocks, one of which may be empty."""
    made = []
    for _ in range(rng.choice([0, 1, 1, 2])):
        made.append((rng.choice([0x02, 0x02, 0x03, 0x60, 0x61, 0x00]), 0, 0, rng.randrange(2)))
    if levels == 0:
        return made
    one, other = block(rng, levels - 1), block(rng, levels - 1)
    test = (rng.choice([0x15, 0x25, 0x35, 0x45]), 0, len(one) + 1, rng.randrange(2))
    over = (0x05, 0, 0, len(other)) if rng.random() < 0.8 else (0x06, 0, 0, 1)
    return made + [test] + one + [over] + other + block(rng, levels - 1)


def joined_paths(rng):
    """Whether each read is stored on every path decides whether such a program is accepted."""
    return build.program(*block(rng, rng.choice([1, 1, 2])), *block(rng, 0), rng.choice([RET_1, (0x16, 0)]))


def step_of(rng, edition, length):
    """A few instructions that change A or X, of all the kinds that don't jump."""
    number = rng.choice([0, 1, 2, 3, 7, 31, 32, 33, 0xFF, 0x80000000, 0xFFFFFFFF, rng.getrandbits(32)])
    word = rng.randrange(programs.SCRATCH_WORDS)
    kind = rng.randrange(8)
    if kind < 3:
        code = rng.choice(programs.ARITHMETIC)
        if rng.random() < 0.5:
            return [(0x01, 0, 0, number), (code + 8, 0, 0, 0)]
        if code in (0x64, 0x74):
            number %= 32
        return [(code, 0, 0, number or 7)]
    if kind == 3:
        stored, other = rng.choice([(0x02, 0x00), (0x03, 0x01), (0x02, 0x01), (0x03, 0x00)])
        return [(stored, 0, 0, word), (other, 0, 0, number), (rng.choice([0x60, 0x61]), 0, 0, word)]
    if kind == 4:
        return [(rng.choice(list(programs.LOADS)), 0, 0, random_place(rng, edition, length))]
    if kind == 5:
        start = rng.choice([0, 24, 71, length - 8, 0xFFFFFFFF])
        return [(0x01, 0, 0, start), (rng.choice(list(programs.INDIRECT_LOADS)), 0, 0, rng.choice([0, 1, 2, 5]))]
    if kind == 6:
        return [(0xB1, 0, 0, random_place(rng, edition, length))]
    return [(rng.choice([0x07, 0x87, 0x84, 0x80, 0x81, 0x00, 0x01]), 0, 0, number)]


def calculation(rng, valid):
    """Steps whose A and X together are compared with what they are for a message, so that each step counts."""
    edition = rng.choice([1, 2])
    memory = programs.image(edition, rng.choice(valid), set())
    body = [(0x00, 0, 0, rng.getrandbits(32)), (0x01, 0, 0, rng.getrandbits(32))]
    for _ in range(rng.randint(1, 6)):
        body += step_of(rng, edition, len(memory))
    body.append((0xAC, 0, 0, 0))
    verdict, _ = programs.run(body + [(0x16, 0, 0, 0)], memory)
    return build.program(*body, (0x15, 0, 1, verdict), RET_1, RET_0)


def wrong_program(rng, valid):
    """A program with a fault as a rule: an instruction of a right one changed, or put in."""
    raw = random_program(rng) if not valid or rng.random() < 0.5 else look_at_word(rng, valid)
    program = programs.decode(raw)
    wrong = rng.choice([
        (rng.choice([0xB4, 0xFFFF, 0x21, 0x0E, 0x100, 0x22]), 0, 0, 0),
        (rng.choice([0x34, 0x94]), 0, 0, 0),
        (rng.choice([0x64, 0x74]), 0, 0, rng.choice([32, 0xFFFFFFFF])),
        (rng.choice([0x60, 0x61, 0x02, 0x03]), 0, 0, rng.choice([15, 16, 0xFFFFFFFF])),
        (0x05, 0, 0, rng.choice([len(program), 0xFFFFFFFF, 0xFFFFFFFE])),
        (rng.choice([0x15, 0x1D]), 255, 0, 0),
        (rng.choice([0x15, 0x1D]), 0, 255, 0),
        (rng.choice([0x20, 0x28, 0x30, 0xB1, 0x40]), 0, 0, rng.choice([0xFFFFF000, 0xFFFFEFFF, 0xFFFFFFFF])),
        (rng.choice([0x60, 0x61]), 0, 0, rng.randrange(16)),
    ])
    place = rng.randrange(len(program))
    if rng.random() < 0.5:
        program[place] = wrong
    else:
        program.insert(place, wrong)
    if rng.random() < 0.15:
        program.append((0x00, 0, 0, 0))
    return build.program(*program)


def long_program(rng):
    count = programs.MOST_INSTRUCTIONS - 1 + rng.choice([0, 0, 1])
    return rng.choice([(0x00, 0), (0x15, 0)]), count


def any_program(rng, valid):
    pick = rng.random()
    if pick < 0.02:
        return b""
    if pick < 0.025:
        one, count = long_program(rng)
        return count * build.program(one) + build.program(RET_1)
    if pick < 0.17:
        return wrong_program(rng, valid)
    if pick < 0.25:
        return joined_paths(rng)
    if pick < 0.29 or not valid:
        return random_program(rng)
    if pick < 0.5:
        return calculation(rng, valid)
    if pick < 0.52:
        return build.program(rng.choice([RET_1, RET_0]))
    if pick < 0.6:
        return look_at_slot(rng)
    looks = [look_at_word, look_at_word, look_at_word, look_at_length, look_at_text, look_at_low_bits, look_at_many]
    return rng.choice(looks)(rng, valid)
