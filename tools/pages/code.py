"""What the code says: commands and their options, limits, methods, errors, faults and statuses."""
import re
from typing import NamedTuple

from .page import TOP, source

UNBOUNDED = 4294967295
ARGUMENT = re.compile(r'name: "([^"]+)",\s+form: Form::(\w+)(?:\(Value::(\w+)(?:\("([^"]+)"\))?\))?')
LIMIT = re.compile(r'^ +\w+ "([^"]+)" ([\d_]+), ([\w:]+), "([^"]+)";$', re.M)
METHOD = re.compile(r'^ +\w+ ([A-Z]+) "(\w+)" \("(.*)"\) -> "([^"]*)"(?: \w+ [\w, ]+)?;$', re.M)


class Limit(NamedTuple):
    name: str
    standard: int
    most: int
    unit: str


def value_name(form, kind, text):
    """What help has for the value of an option; None for one without a value."""
    return {"Text": text, "Number": "N", "Edition": "1|2"}[kind] if form == "Value" else None


def arguments_in(text):
    return {name: (form, value_name(form, kind, value)) for name, form, kind, value in ARGUMENT.findall(text)}


def commands():
    """The arguments of each command by their names: their form and the name of their value."""
    text = source("crates/usage/src/commands.rt")
    listed, _, rest = text.partition("static COMMANDS")[2].partition("\n];\n")
    shared = {it.split(":")[0]: arguments_in(it) for it in rest.split("const ")[1:]}
    found = {}
    for command in listed.split("CommandHelp {")[1:]:
        name = re.search(r'name: "([^"]+)"', command).group(1)
        arguments = command.partition("arguments: &[")[2]
        found[name] = arguments_in(arguments)
        for constant in re.findall(r"(?<=[\s\[])[A-Z_]+(?=[,\]])", "[" + arguments):
            found[name].update(shared.get(constant, {}))
    return found


def options(command):
    """The options of a command, each with the name of its value."""
    return {f"--{name}": value for name, (form, value) in commands()[command].items() if form in ("Flag", "Value")}


def limits():
    rows = LIMIT.findall(source("crates/server/src/limit.rt"))
    return {name: Limit(name, int(standard), UNBOUNDED if most == "u32::MAX" else int(most.replace("_", "")), unit)
            for name, standard, most, unit in rows}


def methods():
    """Each method of the bus: its interface, its name, and the signatures of its arguments and its answer."""
    interfaces = dict(re.findall(r'const ([A-Z]+): &str = "([\w.]+)";', source("crates/bus_messages/src/interface.rt")))
    return [(interfaces[interface], *row) for interface, *row in METHOD.findall(source("crates/bus_messages/src/call.rt"))]


def errors():
    """The errors that the bus answers: their names, each with its sentence, unless others stand for it."""
    text = source("crates/bus_messages/src/error_name.rt")
    # The error BadFilter has a text of the call, so it is no ErrorName.
    names = re.findall(r'"((?:\w+\.)+Error\.\w+)"', text + source("crates/bus_messages/src/sent.rt"))
    sentences = dict(re.findall(r'word: "(\w+)",\s+sentence: (?:"([^"]+)"|[\w.]+\(\))', text))
    return {name: sentences.get(name.rpartition(".")[2], "") for name in names}


def faults(crate):
    """The names of the faults in a crate's error.rt."""
    body = re.search(r"fn name\(self\)(.*?)\n    }\n", source(f"crates/{crate}/src/error.rt"), re.S).group(1)
    return set(re.findall(r'=> "(\w+)"', body))


def causes():
    """Why a bus ends a session, as its log says it. `serve_one`, which tests use, has two causes of its own."""
    used = "".join(source(f"crates/server/src/{it}.rt") for it in ("connection", "worker"))
    return (faults("sessions") - {"Read", "Write"}) | {it.lower() for it in re.findall(r"Limit::([A-Z]\w+)\b(?!\()", used)}


def statuses():
    """The first word of each line of a fault, with the status of the programs that write it."""
    found = set()
    for crate, kind in (("command_line", r'Fault::(\w+)(?:\(\w+\))? => \("(\w+) ?"'), ("serve_command", r'Fault::(\w+) => "dbusfan: (\w+)'),
                        ("watch_command", r'Fault::(\w+)(?:\(\w+\))? => (?:err\.put\(b"dbusfan: (\w+))')):
        text = source(f"crates/{crate}/src/error.rt")
        table = re.search(r"fn status\(.*?\n    }\n", text, re.S).group(0)
        by = {name: int(number) for arm, number in re.findall(r"((?:\s+\|?\s*Fault::\w+(?:\(_\))?)+) =>\s+(\d)", table)
              for name in re.findall(r"Fault::(\w+)", arm)}
        found |= {(word, by[name]) for name, word in re.findall(kind, text)}
    return found


def sentences():
    """What finds each text of the programs' code that has more words than values, and two at least; anything stands for a value."""
    crates = [it for it in TOP.glob("crates/*/src") if not it.parent.name.startswith(("tests_", "cases", "bench_"))]
    files = "\n".join(file.read_text(encoding="utf-8") for it in crates for file in it.rglob("*.rt"))
    texts = {before_pointer(it).strip() for it in re.findall(r'"((?:[^"\\\n]|\\.)*)"', files)}
    pieces = [re.split(r"\{[^}]*\}", it) for it in texts]
    return [re.compile(".+".join(map(re.escape, it))) for it in pieces if word_count(it) >= max(2, len(it))]


def before_pointer(text):
    """A line for people without what it says of help."""
    return text.partition("; see dbusfan")[0]


def word_count(pieces):
    return sum(bool(re.search("[a-z]{2}", it)) for it in " ".join(pieces).split())


def constant(place):
    """A number that a file of the code names, as `crates/server/src/notes.rt ROOM`."""
    name, constant = place.split()
    return int(re.search(rf"const {constant}: \w+ = ([\d_]+);", source(name)).group(1).replace("_", ""))
