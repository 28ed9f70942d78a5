"""Links of pages: the file is there, and the heading that an anchor names. Also paths that stand as code, and listings of examples."""
import re
from pathlib import Path

from .page import TOP, Page, code_of

LINK = re.compile(r"\[(?:[^\[\]]|\[[^\]]*\])*\]\(([^()\s]+)\)")
# A path of the repository; one with a capital name, or `..`, stands for many.
PATH = re.compile(r"(?:\.ci|bench|bugs|clients|completions|crates|docs|examples|man|mutants|packaging|tools)/[a-z0-9_./*-]*[a-z0-9_/*]")


def anchor_of(heading):
    """The anchor of a heading, as GitHub makes it."""
    text = re.sub(r"\[([^\]]*)\]\([^)]*\)", r"\1", heading).replace("`", "")
    return re.sub(r"[^\w\- ]", "", text.strip().lower()).replace(" ", "-")


def anchors_of(page):
    """The anchors of a page's headings; the second of a name has `-1` after it."""
    seen, anchors = {}, set()
    for _, line in page.prose():
        if re.match(r"#+ ", line):
            anchor = anchor_of(line.lstrip("#"))
            count = seen[anchor] = seen.get(anchor, -1) + 1
            anchors.add(f"{anchor}-{count}" if count else anchor)
    return anchors


def check_link(report, page, number, target, known):
    if re.match(r"[a-z]+:", target):
        return
    path, _, anchor = target.partition("#")
    there = (Path(TOP, page.name).parent / path).resolve() if path else Path(TOP, page.name)
    report.check(there.exists(), page.at(number), f"no such file: {target}")
    if anchor and there.is_file():
        name = str(there.relative_to(TOP))
        if name not in known:
            known[name] = anchors_of(Page(name))
        report.check(anchor in known[name], page.at(number), f"no such anchor: {target}")


def check_paths(report, page, number, line):
    """Paths of the repository that stand as code, with `*` for any name."""
    for code in code_of(line):
        for path in PATH.findall(code):
            if code.startswith(path) and "/out/" not in path and not re.search(r"\.\.", path):
                rest = code[len(path):]
                known = not rest or rest.startswith((" ", ":"))
                report.check(not known or any(TOP.glob(path.rstrip("/"))), page.at(number), f"no such path: {path}")


def instructions(lines):
    """The lines of a program without their comments."""
    return [it for it in (line.partition(";")[0].rstrip() for line in lines) if it]


def check_listings(report, page):
    """A block below a link to a program has the instructions of that program."""
    for block in page.blocks():
        above = "\n".join(page.lines[max(0, block.line - 5):block.line - 1])
        linked = re.findall(r"\]\([./]*(examples/\w+\.bpf)\)", above)
        if block.language == "" and linked and Path(TOP, linked[-1]).is_file():
            real = Path(TOP, linked[-1]).read_text(encoding="utf-8").splitlines()
            report.check(instructions(block.lines) == instructions(real), page.at(block.line), f"{linked[-1]} has other instructions")


def check_front(report, pages):
    """The README leads to each page of docs/."""
    linked = {target for _, line in Page("README.md").prose() for target in LINK.findall(line)}
    for page in pages:
        if page.name.startswith("docs/"):
            report.check(page.name in linked, "README.md", f"no link to {page.name}")


def check(report, pages):
    check_front(report, pages)
    known = {}
    for page in pages:
        check_listings(report, page)
        for number, line in page.prose():
            for target in LINK.findall(line):
                check_link(report, page, number, target, known)
            if page.name != "CHANGELOG.md":
                check_paths(report, page, number, line)
