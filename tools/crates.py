"""The crates of this repository, and how they are proved and built side by side.

What `rt` itself knows of a crate (its words for the prover, the sum of its sources, whether it is built) comes from
the library that `rt` is made of, so that `rt check`, `rt test` and the scripts here share what is built. `rt` walks the
graph of crates.txt anew along each of its paths; here each crate's sum and what it stands on are computed once.
"""
import copy
import hashlib
import importlib.machinery
import importlib.util
import json
import os
import re
import shutil
import sys
import tempfile
from concurrent.futures import FIRST_COMPLETED, ThreadPoolExecutor, wait
from pathlib import Path

sys.dont_write_bytecode = True
TOP = Path(__file__).resolve().parent.parent


def once(method):
    """The method, whose answer for a crate is computed at its first call alone."""
    answers = {}

    def answer(crate):
        if crate.folder not in answers:
            answers[crate.folder] = method(crate)
        return copy.copy(answers[crate.folder])

    return answer


def judges_parts(checked):
    """The check of an edited crate, so that of some functions alone it says as of all that they aren't proved."""

    def check(crate, texts, flags, kept):
        ran = checked(crate, texts, flags, kept)
        if "--only" in flags and ran.returncode == 1:
            ran.stdout = re.sub(r"^only=.*\n\Z", "logic=not-proved\n", ran.stdout, flags=re.MULTILINE)
        return ran

    return check


def load_rt(keeps=True):
    """The program `rt` as a module, None if there is no toolchain on the path. It keeps sums and graph, unless it is to
    be measured as it is."""
    found = shutil.which("rt")
    if not found:
        return None
    loader = importlib.machinery.SourceFileLoader("rt", os.path.realpath(found))
    made = importlib.util.module_from_spec(importlib.util.spec_from_loader("rt", loader))
    loader.exec_module(made)
    crate = made.rtlib.Crate
    if keeps:
        crate.stamp, crate.below = once(crate.stamp), once(crate.below)
    if hasattr(made, "checked"):
        made.checked = judges_parts(made.checked)
    # libraries are built with their statements alone: a sixth of the room, and quicker to load
    crate.cuts_libraries = True
    made.rtlib.stop = made.stop
    made.rtlib.guarded()
    return made


def run_gate(rt, anew):
    """Runs `rt ci`, which newer kits tell whether to prove anew what they have kept of earlier runs."""
    return rt.ci(anew) if rt.ci.__code__.co_argcount else rt.ci()


def crates_of(rt, top=TOP):
    """The crates that crates.txt lists, by their names."""
    rt.Crate.allowed = rt.handles_of(str(top))
    rt.rtlib.Crate = rt.Crate
    return {it.name: it for it in rt.rtlib.crates_below(str(top))}


def with_below(crates, names):
    """These crates and all that they stand on, lowest first."""
    found = {}
    for name in names:
        for it in [*crates[name].below(), crates[name]]:
            found[it.name] = it
    return list(found.values())


def with_above(crates, names):
    """These crates and all that stand on them, lowest first."""
    found = [it for it in crates.values() if it.name in names or any(dep.name in names for dep in it.below())]
    return sorted(found, key=lambda it: len(it.below()))


def run_step(crate, step):
    """Runs a step of a crate; returns whether it went well, and what it printed."""
    crate = copy.copy(crate)
    with tempfile.TemporaryFile("w+", errors="replace") as crate.out:
        try:
            os.makedirs(f"{crate.folder}/out", exist_ok=True)
            status = step(crate)
        except SystemExit:
            status = 2
        crate.out.seek(0)
        return status == 0, crate.out.read()


def build_library(rt, crate, jobs):
    """Proves a library from nothing, and builds it for the crates above."""
    status = crate.build_rlib(["--jobs", str(jobs)], anew=True)
    if status == 0:
        note_proved(rt, crate)
    return status


def link_program(rt, crate, jobs):
    """Proves a program over built libraries, and builds it as `rt run` does."""
    kit, program = rt.KIT, f"out/{crate.name}"
    words = ["build", *crate.words(["--jobs", str(jobs)], keeps=False), "--toolchain", f"{kit}/toolchain"]
    status = crate.call(rt.rtlib.RATTLE, *words, "--backend", "llvm", "-o", f"{program}.o") or crate.link(f"{program}.o", program)
    if status == 0:
        stamp = crate.stamp() + rt.rtlib.sum_of(f"{crate.folder}/{program}")
        Path(crate.folder, f"{program}.stamp").write_text(stamp, encoding="utf-8")
    return status


def surface_of(crate):
    """A sum of what crates above see of a built library: its items with their contracts, its definitions and its lemmas, and
    no body of a function."""
    top, kept = Path(crate.folder, f"out/rlib/{crate.name}.rlib"), Path(crate.folder, "out/rlib/surface")
    lines = Path(top, "format").read_text(encoding="utf-8").splitlines()
    # (the last line is the sum of all files of the library)
    if not kept.is_file() or kept.read_text(encoding="utf-8").split()[0] != lines[-1].split()[-1]:
        seen = [it for it in lines if it.split()[0] not in ("over", "needs", "checked", "sum")]
        for part in ("lang", "interface"):
            files = (it for it in sorted(Path(top, part).rglob("*")) if it.is_file() and it.name != "made.json")
            seen += [(str(it.relative_to(top)), it.read_bytes()) for it in files]
        kept.write_text(f"{lines[-1].split()[-1]} {hashlib.sha256(repr(seen).encode()).hexdigest()}", encoding="utf-8")
    return kept.read_text(encoding="utf-8").split()[1]


def proved_over(rt, crate):
    """What the proof of a library rests on: its own files, and the surfaces of the libraries below as they are built."""
    return {"": rt.own_sum(crate), **{it.name: surface_of(it) for it in crate.below()}}


def note_proved(rt, crate):
    """Writes down that a library is proved and built from the sources as they are, and over what."""
    Path(crate.folder, "out/rlib/over").write_text(json.dumps(proved_over(rt, crate)), encoding="utf-8")
    Path(crate.folder, "out/rlib/stamp").write_text(crate.stamp(), encoding="utf-8")


def stays_proved(rt, crate):
    """Whether a library was proved from its files as they are, over surfaces as they are, whatever their bodies are."""
    kept = Path(crate.folder, "out/rlib/over")
    return kept.is_file() and json.loads(kept.read_text(encoding="utf-8")) == proved_over(rt, crate)


def is_built(rt, crate):
    """Whether a library or a program is built from the sources as they are."""
    if not crate.is_program:
        return crate.is_built()
    kept = rt.rtlib.text_of(f"{crate.folder}/out/{crate.name}.stamp")
    return kept == crate.stamp() + rt.rtlib.sum_of(f"{crate.folder}/out/{crate.name}")


def in_lanes(tasks, lanes, memory):
    """Runs tasks side by side, each once those that it waits for have ended, those first that begin the longest chain of
    others. A task is what it waits for, its work in lines, its memory, and a call that takes how many jobs
    it may use and says whether it went well. There is a job more than there are lanes, since a check loads and links with one
    processor, whatever it may use. Nothing begins that waits for one that didn't; returns those that did."""
    chain = {key: work for key, (_, work, _, _) in tasks.items()}
    for key in reversed([*tasks]):
        for it in tasks[key][0]:
            chain[it] = max(chain[it], tasks[it][1] + chain[key])
    left, running, done = sorted(tasks, key=lambda it: -chain[it]), {}, set()
    with ThreadPoolExecutor(lanes) as pool:
        while True:
            ready = [it for it in left if done.issuperset(tasks[it][0])]
            for at, key in enumerate(ready):
                idle = lanes + 1 - sum(jobs for _, jobs in running.values())
                room = memory - sum(tasks[it][2] for it, _ in running.values())
                if idle <= 0 or (running and tasks[key][2] > room):
                    break
                # the chain that takes longest gets a second processor, and whoever comes last those that are left
                is_longest = chain[key] >= max([chain[it] for it in left] + [chain[it] for it, _ in running.values()])
                jobs = max(1, min(4, idle // (len(ready) - at)), 2 if is_longest and idle > 1 else 1)
                left.remove(key)
                running[pool.submit(tasks[key][3], jobs)] = key, jobs
            if not running:
                return done
            for it in wait(running, return_when=FIRST_COMPLETED).done:
                key, _ = running.pop(it)
                if it.result():
                    done.add(key)


def work_of(crate):
    """How much work a crate's check is, in lines of code: a line of definitions or proofs is a third of one."""
    lines = {".rt": 150, ".antt": 0}
    for part in ("src", "specs", "proofs"):
        for file in Path(crate.folder, part).rglob("*.*"):
            lines[file.suffix] = lines.get(file.suffix, 0) + file.read_bytes().count(b"\n")
    return lines[".rt"] + lines[".antt"] // 3


def take_kept(rt, wanted):
    """Takes the libraries of some crates, lowest first, that the gate has proved on this machine from the same files, as far
    as what they stand on is taken too. Only newer kits keep them."""
    # (of a static library the gate keeps that it is proved, and nothing that another crate takes)
    libraries = [it for it in wanted if it.makes_rlib()]
    if not hasattr(rt, "Kept") or all(is_built(rt, it) for it in libraries):
        return
    kept, there = rt.Kept(libraries), set()
    for crate in libraries:
        if not there.issuperset(it.name for it in crate.below()):
            continue
        if not is_built(rt, crate):
            key = kept.key(crate)
            # (what is kept can't be given where a run of the gate has left it in this checkout: it would then be dropped)
            if kept.at and os.path.isdir(kept.place(crate, False, key)):
                shutil.rmtree(f"{crate.folder}/out/rlib", ignore_errors=True)
            if not kept.give(crate, False, key):
                continue
            note_proved(rt, crate)
        kept.is_built(crate)
        there.add(crate.name)


def to_build(rt, wanted):
    """Those of some crates, lowest first, that aren't built from the sources as they are, or stand on one that isn't, and
    that the gate hasn't proved either."""
    take_kept(rt, wanted)
    names = set()
    for crate in wanted:
        if not is_built(rt, crate) or any(it.name in names for it in crate.below()):
            names.add(crate.name)
    return [it for it in wanted if it.name in names]


def forget_above(crates, rebuilt):
    """Forgets what is built over older builds of these: statements fit only what they were built over."""
    for crate in with_above(crates, {it.name for it in rebuilt}):
        Path(crate.folder, "out/rlib/stamp").unlink(missing_ok=True)


def build_tasks(rt, crates, wanted, begun, ended):
    """The tasks that build some crates, lowest first, for `in_lanes`. `begun` is called with each crate as its check
    begins, `ended` as it ends, with whether it is proved and what was said."""

    def task(crate):
        step = link_program if crate.is_program else build_library

        def call(jobs):
            begun(crate)
            well, said = run_step(crate, lambda it: step(rt, it, jobs))
            ended(crate, well, said)
            return well

        return [it.name for it in crate.below() if it.name in names], work_of(crate), rt.need(crate), call

    names = {it.name for it in wanted}
    forget_above(crates, wanted)
    return {it.name: task(it) for it in wanted}
