"""Builds a program of this folder on a copy of the repository, so that the gate doesn't prove it."""

import os
import shutil
import subprocess
import sys

HERE = os.path.dirname(os.path.abspath(__file__))
ROOT = os.path.dirname(os.path.dirname(HERE))
# The libraries that a program's own files name.
NAMES = {
    "figures": "message_view match_rule owners entry_table program_table fan_out published outbox routing router bytes",
    "growths": "message_view bpf_code summary owners program_table fan_out published outbox routing router bytes entry_table arrayvec",
    "stress": "message_view bpf_code summary owners entry_table program_table published outbox routing router bytes",
}
# What a build reads of a library's folder, and what an earlier build left there: its proofs, which take long, aren't made
# again where they are there.
PARTS = ("src", "specs", "proofs", os.path.join("out", "rlib"))


def libraries():
    """The libraries of each crate, and its line."""
    found = {}
    with open(os.path.join(ROOT, "crates.txt")) as file:
        for line in file:
            words, colon, names = line.partition(":")
            if colon and not line.startswith("#"):
                found[words.split()[0]] = (names.split(), line)
    return found


def below(names, found, seen):
    """Adds these libraries of the repository, and those that they stand on, lowest first."""
    for name in names:
        if name in found and name not in seen:
            below(found[name][0], found, seen)
            seen.append(name)


def copy_repository(root, kind):
    """The libraries that the program stands on, with what earlier builds left."""
    found, seen = libraries(), []
    below(NAMES[kind].split(), found, seen)
    for name in seen:
        for part in PARTS:
            old = os.path.join(ROOT, "crates", name, part)
            if os.path.isdir(old):
                shutil.copytree(old, os.path.join(root, "crates", name, part))
    shutil.copy(os.path.join(ROOT, "HANDLES"), root)
    with open(os.path.join(root, "crates.txt"), "w") as file:
        file.writelines(found[name][1] for name in seen)


def copy_texts(old, new):
    """Copies the files of a folder that end in `.txt`, without that end; those of folders below it too, where it is `proofs`."""
    for folder, folders, names in os.walk(old):
        place = os.path.join(new, os.path.relpath(folder, old))
        os.makedirs(place, exist_ok=True)
        for name in names:
            if name.endswith(".txt"):
                shutil.copy(os.path.join(folder, name), os.path.join(place, name.removesuffix(".txt")))
        if os.path.basename(new) == "src":
            folders.clear()


def copy_program(root, kind):
    """The program's crate, with the files that all programs share."""
    crate = os.path.join(root, "crates", "bus_" + kind)
    for folder, where in (("common", "src"), (kind, "src"), (os.path.join(kind, "proofs"), "proofs")):
        copy_texts(os.path.join(HERE, folder), os.path.join(crate, where))
    with open(os.path.join(root, "crates.txt"), "a") as file:
        file.write("bus_%s: %s\n" % (kind, NAMES[kind]))
    return crate


def build(kind, root):
    """The path of the program, which is proved and built below `root`, a folder that isn't there yet."""
    rt = os.environ.get("RT", "rt")
    # It is the highest of the libraries, so that all of them are proved then.
    subprocess.run([rt, "lib"], cwd=os.path.join(ROOT, "crates", "router"), stdout=sys.stderr, check=True)
    copy_repository(root, kind)
    crate = copy_program(root, kind)
    program = os.path.join(crate, "out", "bus_" + kind)
    # With no argument the program ends at once.
    done = subprocess.run([rt, "run"], cwd=crate, stdout=subprocess.PIPE, stderr=subprocess.STDOUT)
    if not os.path.exists(program):
        sys.stderr.buffer.write(done.stdout)
        raise SystemExit("%s isn't built" % kind)
    return program
