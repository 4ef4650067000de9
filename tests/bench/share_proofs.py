#!/usr/bin/env python3
"""Gives clones what runs of `rt ci` on this machine have proved, so that a check there begins with it.

    tests/bench/share_proofs.py [--from FOLDER] CLONE ..

While `rt ci NAME ..` runs, the libraries that it has proved lie in its copy (/tmp/rt-copy-*/repo/crates/NAME/out/rlib). A clone whose text of the crate and
of all crates below is the same gets them with the stamp of that text, and takes them for built. A crate that a check is building there at that moment must
not be given: run it while no `rt` runs in the clone. A run without names works in its own folder, which `--from` names. It's no part of the gate, which keeps its own proofs.
"""
import glob
import importlib.machinery
import importlib.util
import os
import shutil
import subprocess
import sys


def toolchain():
    """The toolchain's own command as a module: it says what a crate's stamp is."""
    loader = importlib.machinery.SourceFileLoader("rt_script", os.path.realpath(shutil.which("rt")))
    made = importlib.util.module_from_spec(importlib.util.spec_from_loader("rt_script", loader))
    loader.exec_module(made)
    return made.rtlib if hasattr(made, "rtlib") else made.load()


def below(top):
    """The libraries of each crate, as crates.txt has them."""
    made = {}
    with open(f"{top}/crates.txt", encoding="utf-8") as lines:
        for line in lines:
            name, colon, libraries = line.partition("#")[0].partition(":")
            if colon:
                made[name.split()[0]] = libraries.split()
    return made


def is_same(one, other):
    for part in ("src", "specs", "proofs"):
        there = [os.path.isdir(f"{folder}/{part}") for folder in (one, other)]
        if there[0] != there[1] or there[0] and subprocess.run(["diff", "-rq", f"{one}/{part}", f"{other}/{part}"], stdout=subprocess.DEVNULL).returncode:
            return False
    return True


def link(one, other):
    try:
        os.link(one, other)
    except OSError:
        shutil.copy2(one, other)


class Run:
    """What one run has proved, beside a clone."""

    def __init__(self, top, clone, crates):
        self.top, self.clone, self.crates = top, clone, crates
        self.here, self.there, self.alike, self.gave = below(top), below(clone), {}, {}

    def is_alike(self, name):
        if name not in self.here and name not in self.there:
            return True  # a library of the toolchain
        if name not in self.alike:
            self.alike[name] = False
            self.alike[name] = (self.here.get(name) == self.there.get(name) and is_same(f"{self.top}/crates/{name}", f"{self.clone}/crates/{name}")
                                and all(map(self.is_alike, self.here[name])))
        return self.alike[name]

    def give(self, name, given):
        """Gives the crate and those below it, each once, and tells whether all are there."""
        if name not in self.gave:
            self.gave[name] = self.give_one(name, given)
        return self.gave[name]

    def give_one(self, name, given):
        if not all(self.give(each, given) for each in self.here[name] if each in self.here):
            return False
        made, kept = f"{self.top}/crates/{name}/out/rlib", f"{self.clone}/crates/{name}/out/rlib"
        if not os.path.exists(f"{made}/{name}.rlib/format"):
            return False
        stamp = self.crates[name].stamp()
        try:
            with open(f"{kept}/stamp", encoding="utf-8") as one, open(f"{kept}/{name}.rlib/format", "rb") as two, open(f"{made}/{name}.rlib/format", "rb") as three:
                if one.read() == stamp and two.read() == three.read():
                    return True
        except OSError:
            pass
        room = f"{self.clone}/crates/{name}/out/shared"
        shutil.rmtree(room, ignore_errors=True)
        shutil.copytree(made, room, copy_function=link)
        with open(f"{room}/stamp.new", "w", encoding="utf-8") as out:
            out.write(stamp)
        os.replace(f"{room}/stamp.new", f"{room}/stamp")
        shutil.rmtree(kept, ignore_errors=True)
        os.rename(room, kept)
        given.append(name)
        return True


def main(words):
    rtlib, tops = toolchain(), sorted(glob.glob("/tmp/rt-copy-*/repo"), key=os.path.getmtime, reverse=True)
    if words[:1] == ["--from"]:
        tops, words = [os.path.abspath(words[1])], words[2:]
    for clone in map(os.path.abspath, words):
        crates, given = {each.name: each for each in rtlib.crates_below(f"{clone}/crates")}, []
        for top in tops:
            if os.path.exists(f"{top}/crates.txt"):
                run = Run(top, clone, crates)
                for name in run.here:
                    if run.is_alike(name):
                        run.give(name, given)
        print(clone, len(given), *given)


if __name__ == "__main__":
    main(sys.argv[1:])
