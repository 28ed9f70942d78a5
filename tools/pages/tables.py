"""Tables of options, limits, methods, errors and faults: they have just what the code has."""
import re

from . import code
from .page import Page, code_of

COMMANDS, WATCHING, SECURITY, IMAGE = (f"docs/{it}.md" for it in ("COMMANDS", "WATCHING", "SECURITY", "IMAGE"))
OPTION = re.compile(r"--[a-z][a-z-]*(?: (?:ADDRESS|GUID|NAME=N|NAME|FILE|EXPR|N|1\|2)(?!\w))?")
METHOD = re.compile(r"(\w+)\((.*)\)(?: -> (.+))?")
# The faults of each word, and those that no file of a command can have: a program's file is text, and never bytes.
FAULTS = {"rule": (["match_key"], {"NoMemory"}), "filter": (["filter", "filter_compile"], {"NoMemory"}), "message": (["message_value"], set()),
          "capture": (["captures"], set()), "code": (["bpf_code"], {"NoMemory", "Length", "Code"}),
          "program": (["bpf_verify"], {"NoMemory", "Code"})}
# What `clap` says of words by itself.
BY_CLAP = ("unexpected argument", "the following required arguments", "unrecognized subcommand")
# The facts of GetStats that stand apart from those in stats.rt.
APART = {"UniqueName"}


def spelled(options):
    """Options with their values, as help spells them."""
    return {f"{name} {value}" if value else name for name, value in options.items()}


def check_commands(report, page):
    """Each command has a row; where a row names its options, it names all of them."""
    table, known = page.table("Command", "What it does"), code.commands()
    rows = [(line, code_of(cells[0])[0]) for line, cells in table.rows]
    named = {text.split()[0]: page.at(line) for line, text in rows if text[0] != "-"}
    report.check_same(page.at(table.line), "command", named, {*known, "help"})
    for name in known:
        mine = [(line, text) for line, text in rows if text.split()[0] == name]
        stated = {it for _, text in mine for it in OPTION.findall(text)}
        if any("[OPTION" in text for _, text in mine):
            report.check_same(page.at(mine[0][0]), f"option of {name}", stated - spelled(code.options(name)), set())
        else:
            report.check_same(page.at(mine[0][0]), f"option of {name}", stated, spelled(code.options(name)))


def check_options(report, page, command, *header):
    table = page.table(*header)
    stated = {it: page.at(line) for line, cells in table.rows if cells[0][0] == "`" for it in OPTION.findall(cells[0])}
    report.check_same(page.at(table.line), f"option of {command}", stated, spelled(code.options(command)))


def check_serve(report, page):
    check_options(report, page, "serve", "Option of `serve`")


def check_watch(report, page):
    check_options(report, page, "watch", "Option")


def numbers_in(text):
    return {int(it.replace(",", "")) for it in re.findall(r"\d[\d,]*\d|\d", text)}


def spellings(number):
    """A number as pages write it: with commas, or in MiB."""
    return {f"{number:,}", str(number), *([f"{number >> 20} MiB"] if number % (1 << 20) == 0 else [])}


def says(text, number):
    return any(re.search(rf"(?<![\d,]){re.escape(it)}(?![\d,]*\d)", text) for it in spellings(number))


def check_limits(report, page):
    """The name, the standard value, the largest value and the unit of each limit."""
    table, known = page.table("Name", "What it limits"), code.limits()
    report.check_same(page.at(table.line), "limit", {code_of(cells[0])[0]: page.at(line) for line, cells in table.rows}, known)
    for line, (name, of, _, standard) in table.rows:
        limit = known.get(name.strip("`"))
        if limit:
            report.check(numbers_in(standard) == {limit.standard}, page.at(line), f"the default of {limit.name} is {limit.standard:,}")
            most = [int(it.replace(",", "")) for it in re.findall(r"at most ([\d,]*\d)", of)] or [code.UNBOUNDED]
            report.check(most == [limit.most], page.at(line), f"{limit.name} is at most {limit.most:,}")
            report.check(all(it in of for it in limit.unit.split() if it != "and"), page.at(line), f"{limit.name} counts {limit.unit}")


def check_shares(report, page):
    """Each limit's standard value stands in a row with its name."""
    table, known = page.table("What", "Limit"), code.limits()
    named = {(line, name): cells[0] for line, cells in table.rows for name in code_of(cells[1])}
    report.check_same(page.at(table.line), "limit", {name: page.at(line) for line, name in named}, known)
    for (line, name), text in named.items():
        if name in known:
            report.check(says(text, known[name].standard), page.at(line), f"the default of {name} is {known[name].standard:,}")


def check_limit_words(report, page):
    """Each `--limit NAME=N` of an example is one that may be given."""
    known = code.limits()
    for found in re.finditer(r"--limit ([a-z-]+)=(\d+)(?!\d*:)", page.text):
        name, number = found.group(1), int(found.group(2))
        well = name in known and 1 <= number <= known[name].most
        report.check(well, page.at(page.line_of(found.start())), f"no such limit: {name}={number}")


def check_methods(report, page):
    """Each method under its interface, with the signatures of its arguments and its answer."""
    table = page.table("Interface", "Methods")
    stated = {(code_of(cells[0])[0], *METHOD.fullmatch(it).groups("")): page.at(line)
              for line, cells in table.rows for it in code_of(cells[1])}
    report.check_same(page.at(table.line), "method", stated, code.methods())


def check_errors(report, page):
    """Each error of the bus; the sentence that it has of its own is quoted."""
    table, known = page.table("Error", "What the bus says"), code.errors()
    rows = [(page.at(line), code_of(cells[0])[0], (code_of(cells[1]) or [""])[0]) for line, cells in table.rows]
    stated = {(it if "." in it else f"org.freedesktop.DBus.Error.{it}", sentence): place for place, it, sentence in rows}
    report.check_same(page.at(table.line), "error", stated, known.items())


def check_facts(report, page):
    table = page.table("Fact", "GetStats")
    stated = {it: page.at(line) for line, cells in table.rows for it in code_of(cells[0]) if it not in APART}
    real = re.findall(r'number_fact\("(\w+)"', code.source("crates/peers/src/stats.rt"))
    report.check_same(page.at(table.line), "fact of GetStats", stated, real)


def check_faults(report, page):
    table = page.table("After", "Names")
    rows = {code_of(cells[0])[0]: (line, cells[1]) for line, cells in table.rows}
    report.check_same(page.at(table.line), "word of faults", rows, FAULTS)
    for word, (line, names) in rows.items():
        crates, never = FAULTS.get(word, ([], set()))
        known = {name for crate in crates for name in code.faults(crate)}
        stated = {it.split()[0] for it in code_of(names) if it[0].isupper()}
        report.check_same(page.at(line), f"fault of a {word}", stated, known - never if crates else stated)


def check_statuses(report, page):
    table, known = page.table("Answer", "Where it is written"), code.statuses()
    stated = {(word, int(cells[2])): page.at(line) for line, cells in table.rows if cells[2].isdigit()
              for word in re.findall(r"`dbusfan: ([a-z]+)\b", cells[0]) if word in dict(known)}
    report.check_same(page.at(table.line), "fault with this status", stated, known)


def check_sentences(report, page):
    """Each example of a line for people is a sentence of the code."""
    known = code.sentences()
    for line, cells in page.table("After", "An example of the second line").rows:
        for said in code_of(cells[1]):
            if " " in said and not said.startswith(BY_CLAP):
                found = any(it.search(code.before_pointer(said)) for it in known)
                report.check(found, page.at(line), f"the code has no such sentence: {said}")


def check_causes(report, page):
    """Each cause of the end of a session is in the table of what a bus tells."""
    table = page.table("Line", "What happened")
    text = " ".join(cells[0] + cells[1] for _, cells in table.rows)
    for cause in code.causes():
        report.check(re.search(rf"\b{cause}\b", text), page.at(table.line), f"cause left out: {cause}")


def check_image(report, page):
    """The places of an image."""
    layout = code.source("crates/summary/specs/Layout.antt")
    places = {int(it) for it in re.findall(r"^[\w ]+ = (\d+)(?: \+ .*)?$", layout, re.M)} - {904, 976, 0}
    stated = {place for _, cells in page.table("At", "Word").rows for place in numbers_in(cells[0])}
    report.check(places <= stated, page.at(page.table("At", "Word").line), f"places left out: {sorted(places - stated)}")
    lengths = [cells[1:] for _, cells in page.table("", "Edition 1").rows][0]
    real = re.findall(r"summary_len \w+ = (\d+)", layout)
    report.check(lengths == real, page.at(page.table("", "Edition 1").line), f"the lengths are {real}")


# Each page's tables: what compares them.
PARTS = [
    (COMMANDS, check_commands), (COMMANDS, check_limits), (COMMANDS, check_methods), (COMMANDS, check_errors), (COMMANDS, check_facts),
    (COMMANDS, check_faults), (COMMANDS, check_statuses), (COMMANDS, check_sentences), (COMMANDS, check_causes), (COMMANDS, check_serve),
    (WATCHING, check_watch), (SECURITY, check_shares), (IMAGE, check_image),
]


def check(report, pages):
    for name, part in PARTS:
        try:
            part(report, Page(name))
        except LookupError as missing:
            report.check(False, name, missing)
    for page in pages:
        check_limit_words(report, page)
