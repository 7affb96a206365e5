#!/usr/bin/env python3
"""Checks a crate over the libraries that a gate has proved.

A gate (rt ci) that runs in one checkout proves libraries that rt check in another cannot use, so that on a new machine each
checkout would prove all libraries below a crate again.

  tools/over_gate.py collect DIR GATE LOG     keeps in DIR the libraries that the gate which runs in the checkout GATE has proved, as
                                              what it prints, in the file LOG, says so; until it is stopped
  tools/over_gate.py check DIR GATE [WORD..]  in a crate's folder: runs rt with these words (rt check without) over the libraries in
                                              DIR of all crates below whose text is that of GATE; the others are proved here.
                                              It waits for those that are not in DIR yet

DIR has to lie on the disk that GATE lies on. No verdict rests on this: rt ci is the gate.
"""
import hashlib
import importlib.machinery
import importlib.util
import os
import re
import shutil
import subprocess
import sys
import time

KIT = "/opt/rattle/bin/rtlib.py"


def kit():
    loader = importlib.machinery.SourceFileLoader("rtlib", KIT)
    made = importlib.util.module_from_spec(importlib.util.spec_from_loader("rtlib", loader))
    sys.modules["rtlib"] = made
    loader.exec_module(made)
    return made


def linked(folder, to):
    """Copies a folder by hard links, and lets it appear at once."""
    room = f"{os.path.dirname(to)}/.{os.path.basename(to)}.{os.getpid()}"
    if subprocess.run(["cp", "-al", folder, room], stderr=subprocess.DEVNULL).returncode == 0:
        os.rename(room, to)
    else:
        shutil.rmtree(room, ignore_errors=True)


def collect(kept, gate, log):
    os.makedirs(kept, exist_ok=True)
    while True:
        with open(log, encoding="utf-8", errors="replace") as it:
            names = re.findall(r"^rt: (\w+) (?:proved|is kept)", it.read(), re.M)
        for name in names:
            folder, to = f"{gate}/crates/{name}/out/rlib/{name}.rlib", f"{kept}/{name}.rlib"
            if os.path.isdir(folder) and not os.path.isdir(to):
                linked(folder, to)
        time.sleep(5)


def sums(rt, root):
    """Returns, by name, a function that sums the text of a crate and of those below it, and their lines in crates.txt."""
    uses, known = {}, {}
    for line in open(f"{root}/crates.txt", encoding="utf-8"):
        name, _, rest = line.partition("#")[0].partition(":")
        if name.strip():
            uses[name.strip()] = rest.split()

    def one(name):
        if name not in known:
            made, folder = hashlib.sha256(repr(uses[name]).encode()), f"{root}/crates/{name}"
            for file in rt.files_of(folder):
                with open(file, "rb") as it:
                    made.update(repr((file.replace(folder, ""), it.read())).encode())
            made.update(repr([one(it) for it in uses[name] if it in uses]).encode())
            known[name] = made.hexdigest()
        return known[name]

    return uses, one


def check(kept, gate, words):
    rt, folder = kit(), os.getcwd()
    root = os.path.dirname(os.path.dirname(folder))
    (_, here), (there, other) = sums(rt, root), sums(rt, gate)
    crate = next(it for it in rt.crates_below(root) if it.folder == folder)
    for it in crate.below():
        if it.name not in there or here(it.name) != other(it.name) or it.is_built():
            continue
        while not os.path.isdir(f"{kept}/{it.name}.rlib"):
            print(f"waiting for {it.name}", flush=True)
            time.sleep(10)
        shutil.rmtree(f"{it.folder}/out/rlib", ignore_errors=True)
        os.makedirs(f"{it.folder}/out/rlib")
        linked(f"{kept}/{it.name}.rlib", it.rlib)
        with open(f"{it.folder}/out/rlib/stamp", "w", encoding="utf-8") as stamp:
            stamp.write(it.stamp())
    os.execvp("rt", ["rt", *(words or ["check"])])


if __name__ == "__main__":
    words = sys.argv[1:]
    if words[:1] == ["collect"] and len(words) == 4:
        collect(*words[1:])
    elif words[:1] == ["check"] and len(words) >= 3:
        check(words[1], words[2], words[3:])
    else:
        sys.exit(__doc__)
