"""What the gate asks of a crate, over libraries that are kept: its proof, its tests, its program's run, its edits."""
import hashlib
import shutil
import subprocess
from pathlib import Path

import crates as tree
from edits import edits_of, try_edits


def sum_of_edits(crate):
    read = [Path(it).read_bytes() for it in edits_of(crate)]
    return crate.stamp() + hashlib.sha256(repr(read).encode()).hexdigest()


def sum_of_run(crate):
    """A sum of all that a program's run, or that of its tests, depends on."""
    files = [Path(crate.folder, it) for it in ("stdin", "stdout", "args", "status")]
    files += sorted(it for it in Path(crate.folder, "data").rglob("*") if it.is_file())
    read = [(str(it), it.read_bytes()) for it in files if it.is_file()]
    return crate.stamp() + hashlib.sha256(repr(read).encode()).hexdigest()


def run_checked(rt, crate, tests, jobs):
    """Proves a crate's tests, or a program, as the gate does, and runs what was built; returns whether all is well."""
    well, said = tree.run_step(crate, lambda it: it.ci(["--jobs", str(jobs)], tests))
    if not well:
        print(said, f"{crate.name} is not proved", sep="\n", flush=True)
        return False
    made = f"{crate.folder}/out/{crate.name}{'_tests' if tests else ''}"
    return all(rt.run(crate, tests, end) for end in rt.BACKENDS.values() if Path(made + end).is_file())


def run_unproved(rt, crate, tests):
    """Runs a program, or a crate's tests, from its sources with no proof; returns whether it does what it has to."""
    there = {it: Path(crate.folder, it).read_bytes() for it in ("stdin", "stdout", "args", "status") if Path(crate.folder, it).is_file()}
    data = [it for it in sorted(Path(crate.folder, "data").rglob("*")) if it.is_file()]
    words = ["--test"] if tests else [word for it in data for word in ("--data", f"{it.relative_to(crate.folder + '/data')}={it}")]
    words += ["--seconds", "600", "--", *there.get("args", b"").decode().splitlines()]
    ran = subprocess.run([shutil.which("rt"), "try", *words], cwd=crate.folder, input=there.get("stdin", b""), capture_output=True)
    well = ran.returncode == 0 if tests else (ran.returncode, ran.stdout) == (int(there.get("status", b"0")), there.get("stdout", b""))
    if not well:
        print(ran.stdout[-2000:].decode(errors="replace"), ran.stderr[-2000:].decode(errors="replace"), sep="\n", flush=True)
    return well


class Steps:
    """All that has to be green again after some crates were touched.

    First the touched crates, and what they stand on. Where the surfaces of the touched libraries are what they were, as after
    a change of bodies alone, the libraries above stay proved, and of what stands above only programs and tests are run,
    from their sources. Else all that stands above is proved again."""

    def __init__(self, rt, crates, names):
        self.rt, self.crates, self.names = rt, crates, names
        self.green = {"libraries": 0, "programs": 0, "crates of tests": 0, "edits": 0, "libraries still": 0, "runs without a proof": 0}
        self.failed, self.locked = [], set()

    def run(self):
        """Does all of it; returns whether all is green."""
        touched = [self.crates[it] for it in self.names]
        below = tree.with_below(self.crates, self.names)
        above = [it for it in tree.with_above(self.crates, self.names) if it not in below]
        if not self.do(self.tasks_of(touched, below)):
            return False
        # (crates of tests are nobody's library, and are run from their sources in either case; nor are the static libraries of the
        # benchmarks, which aren't built here, and stay proved as libraries do)
        libraries = [it for it in above if it.makes_rlib() and not it.has_tests()]
        if all(tree.stays_proved(self.rt, it) for it in libraries):
            self.green["libraries still"] = len(libraries)
            return self.do({key: task for it in above for key, task in self.runs(it)})
        return self.do(self.tasks_of(above, [it for crate in above for it in [*crate.below(), crate]]))

    def tasks_of(self, wanted, below):
        """What makes some crates green, and the libraries that they stand on."""
        tasks = {(it.name, "libraries"): self.library(it) for it in below if not it.is_program}
        libraries = sorted((self.crates[name] for name, _ in tasks), key=lambda it: len(it.below()))
        self.lock(libraries)
        tree.forget_above(self.crates, tree.to_build(self.rt, libraries))
        return tasks | {key: task for it in wanted for key, task in self.checks(it)}

    def lock(self, libraries):
        """Keeps other runs of rt out of these crates' folders, each locked once: a second time this run would wait for itself."""
        self.rt.rtlib.lock([it for it in libraries if it.name not in self.locked])
        self.locked |= {it.name for it in libraries}

    def checks(self, crate):
        if crate.is_program:
            yield self.kept(crate, "programs", sum_of_run, lambda jobs: int(run_checked(self.rt, crate, False, jobs)))
        elif crate.has_tests():
            yield self.kept(crate, "crates of tests", sum_of_run, lambda jobs: int(run_checked(self.rt, crate, True, jobs)))
        if crate.name in self.names and edits_of(crate):
            yield self.kept(crate, "edits", sum_of_edits, lambda jobs: self.edits(crate))

    def runs(self, crate):
        kinds = {"program": False} if crate.is_program else {"tests": True} if crate.has_tests() else {}
        for kind, tests in kinds.items():
            call = lambda jobs: self.ended(crate, "runs without a proof", int(run_unproved(self.rt, crate, tests)))
            yield (crate.name, kind), ([], tree.work_of(crate), 1e9, call)

    def kept(self, crate, kind, sum_of, step):
        """A task that isn't done again while nothing that it depends on has changed."""

        def call(jobs):
            kept, wanted = Path(crate.folder, "out", f"green-{kind.replace(' ', '-')}"), sum_of(crate)
            said = kept.read_text().split() if kept.is_file() else []
            count = int(said[1]) if said[:1] == [wanted] else step(jobs)
            if count:
                kept.parent.mkdir(exist_ok=True)
                kept.write_text(f"{wanted} {count}")
            return self.ended(crate, kind, count)

        return (crate.name, kind), ([(it.name, "libraries") for it in crate.below()], tree.work_of(crate), self.rt.need(crate), call)

    def library(self, crate):
        def call(jobs):
            if tree.is_built(self.rt, crate):
                return True
            well, said = tree.run_step(crate, lambda it: tree.build_library(self.rt, it, jobs))
            if not well:
                print(said, flush=True)
            return self.ended(crate, "libraries", int(well))

        return [(it.name, "libraries") for it in crate.below()], tree.work_of(crate), self.rt.need(crate), call

    def edits(self, crate):
        refused, wanted = try_edits(self.rt, crate, lambda text: print(text, flush=True))
        return refused if refused == wanted else 0

    def ended(self, crate, kind, count):
        print(f"{crate.name}: {kind} {'green' if count else 'NOT GREEN'}\n", end="", flush=True)
        self.green[kind] += count
        if not count:
            self.failed.append(f"{crate.name} ({kind})")
        return bool(count)

    def do(self, tasks):
        """Does some tasks, those of low crates first; returns whether all are green."""
        order = sorted(tasks, key=lambda it: len(self.crates[it[0]].below()))
        done = tree.in_lanes({key: tasks[key] for key in order}, self.rt.processors(), 0.85 * self.rt.free())
        return not self.failed and len(done) == len(tasks)

    def summary(self):
        still, unproved = self.green.pop("libraries still"), self.green.pop("runs without a proof")
        said = ", ".join(f"{count} {kind}" for kind, count in self.green.items()) + " green"
        if still or unproved:
            said += f", {still} libraries above stay proved, {unproved} programs and crates of tests above run well without a proof"
        return said + (f"; NOT GREEN: {', '.join(self.failed)}" if self.failed else "")
