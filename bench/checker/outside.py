"""The checker itself, by cases that others made: a folder with messages.tsv, rules.jsonl and programs.jsonl."""

import json
import os

from . import assembler, messages, programs, rules

HEX_BLANKS = str.maketrans("", "", " \t\r\n")


class HexFault(Exception):
    pass


def from_hex(digits):
    try:
        return bytes.fromhex(digits.translate(HEX_BLANKS))
    except ValueError:
        raise HexFault from None


def message_answer(digits):
    try:
        messages.read(from_hex(digits))
    except messages.Fault as fault:
        return fault.args[0]
    return "ok"


def rule_answer(case):
    try:
        rule = rules.read(case["rule"].encode())
    except rules.RuleFault as fault:
        return "rule " + fault.args[0]
    message = messages.read(from_hex(case["message"]))
    owned = {rule.sender_name()} if case["sender_owns_name"] else set()
    return "match" if rules.holds(rule, message, owned) else "no match"


def program_answers(case):
    """What `asm`, `check` and `run` print, say and end with."""
    try:
        program = assembler.assemble(case["program"])
    except assembler.CodeFault as fault:
        refused = ["", "dbusfan: code %s at %d\n" % fault.args, 2]
        return refused, refused, refused
    lines = "".join(assembler.as_bytes([one]).hex() + "\n" for one in program)
    try:
        programs.verify(program)
    except programs.ProgramFault as fault:
        refused = ["", "dbusfan: program %s\n" % " at ".join(str(word) for word in fault.args), 2]
        return [lines, "", 0], refused, refused
    return [lines, "", 0], ["ok %d\n" % len(program), "", 0], run_answer(program, case["message"])


def run_answer(program, digits):
    try:
        message = messages.read(from_hex(digits))
    except HexFault:
        return ["", "dbusfan: hex\n", 2]
    except messages.Fault as fault:
        return ["", "dbusfan: message %s\n" % fault.args[0], 2]
    verdict, steps = programs.run(program, programs.image(1, message, set()))
    return ["verdict %d steps %d\n" % (verdict, steps), "", 0 if verdict else 1]


def main(options):
    count, misses = 0, []

    def compare(what, wanted, given):
        nonlocal count
        count += 1
        if wanted != given:
            misses.append((what, wanted, given))

    with open(os.path.join(options.directory, "messages.tsv")) as lines:
        for line in lines:
            name, wanted, digits = line.rstrip("\n").split("\t")
            compare(name, wanted, message_answer(digits))
    with open(os.path.join(options.directory, "rules.jsonl")) as lines:
        for line in lines:
            case = json.loads(line)
            compare(case["rule"], case["wanted"], rule_answer(case))
    with open(os.path.join(options.directory, "programs.jsonl")) as lines:
        for line in lines:
            case = json.loads(line)
            for word, given in zip(("asm", "check", "run"), program_answers(case)):
                compare(word + " of " + case["program"], case[word], given)
    for what, wanted, given in misses:
        print("%r\n  wanted %r\n  given  %r" % (what, wanted, given))
    print("%d cases, %d wrong" % (count, len(misses)))
    return 1 if misses else 0
