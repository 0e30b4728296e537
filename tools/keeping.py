#!/usr/bin/env python3
"""For tools/build. Where the kit's `rt ci` keeps nothing of what it has proved:

keeping.py STORE: does `rt ci` in this folder, but takes from STORE the crates that an earlier call proved, and puts
there those that this call proves. Of a static library it also makes the archive, which `rt ci` does not.
keeping.py STORE --take FILE NAME..: puts into STORE what an `rt ci` in this folder has built of these crates, where it
is newer than FILE, which was written just before. (`rt ci` puts back the libraries that it found.)
keeping.py STORE --lacking: shows which crates of this folder's list STORE does not have.

Where the kit keeps what it has proved:

keeping.py STORE --lend NAME: puts there the libraries below NAME that an `rt ci` has kept of the same files, and shows
which crates these lack.
keeping.py STORE --archive NAME: proves the static library NAME over these, and makes the archive.

A crate is kept by a sum of the kit, HANDLES, the crate's line in crates.txt, each of its files in src, specs and
proofs, and the sums of the crates below it. What is kept is packed, since `rt ci` refuses a checkout in which code lies
outside of the crates."""
import hashlib
import importlib.machinery
import importlib.util
import os
import shutil
import subprocess
import sys
import tempfile

SUMS = {}


def kits_rt():
    """Returns the kit's command `rt` as a module."""
    loader = importlib.machinery.SourceFileLoader("rt", os.path.realpath(shutil.which("rt")))
    made = importlib.util.module_from_spec(importlib.util.spec_from_loader("rt", loader))
    sys.modules["rt"] = made
    loader.exec_module(made)
    return made


rt = kits_rt()
rtlib = rt.rtlib


def content(file):
    with open(file, "rb") as it:
        return it.read()


def kit():
    """Returns what tells this kit, and what it allows, from another."""
    found = os.stat(rtlib.RATTLE)
    return repr([content(f"{rt.KIT}/KIT-ID"), found.st_size, found.st_mtime, content("HANDLES")])


def sum_of(crate):
    if crate.folder not in SUMS:
        made = hashlib.sha256(repr([kit(), crate.said]).encode())
        for file in rtlib.files_of(crate.folder):
            made.update(repr([os.path.relpath(file, crate.folder), content(file)]).encode())
        made.update(repr(sorted(sum_of(it) for it in crate.deps)).encode())
        SUMS[crate.folder] = made.hexdigest()
    return SUMS[crate.folder]


def pack_of(store, crate):
    return f"{store}/{crate.name}.{sum_of(crate)}.tar"


def made_of(crate):
    """Returns what `rt ci` leaves in the crate's folder out/ for others."""
    if crate.is_program:
        names = [crate.name + ending for ending in rt.BACKENDS.values()]
    else:
        names = [f"lib{crate.name}.a" if crate.is_static else "rlib"]
    return [it for it in names if os.path.exists(f"{crate.folder}/out/{it}")]


def keep(store, crate):
    pack = pack_of(store, crate)
    if made_of(crate) and not os.path.exists(pack):
        subprocess.run(["tar", "-cf", f"{pack}.new", "-C", f"{crate.folder}/out", *made_of(crate)], check=True)
        os.replace(f"{pack}.new", pack)


def is_of_gate(crate, since):
    """Whether what stands in the crate's folder out/ was made since then, and not by `rt lib`, which leaves a stamp."""
    made = [f"{crate.folder}/out/{it}" for it in made_of(crate)]
    made = [f"{it}/{crate.name}.rlib/format" if os.path.isdir(it) else it for it in made]
    is_new = all(os.path.exists(it) and os.path.getmtime(it) > since for it in made)
    return is_new and not os.path.exists(f"{crate.folder}/out/rlib/stamp")


def archive(crate, flags):
    """Proves a static library, and makes its archive of what was proved, as `rt ci` makes a program."""
    words = crate.words(flags, keeps=False)
    with tempfile.TemporaryDirectory(prefix="rt-proved-") as room:
        status = crate.prove(["check", *words, "-o", f"{room}/checked"])
        for flag in ("--logic-built", "--jobs"):
            at = words.index(flag)
            words = [*words[:at], *words[at + 2:]]
        words += ["--crate-checked", f"{room}/checked", "--toolchain", f"{rt.KIT}/toolchain", "--backend", "llvm"]
        return status or crate.call(rtlib.RATTLE, "build", *words, "-o", f"out/lib{crate.name}.a")


def keeping(store, wanted):
    """Returns the class of a crate that is kept; what is kept of those that are wanted is unpacked for others."""

    class Keeping(rt.Crate):
        def ci(self, flags, tests):
            if tests:
                return super().ci(flags, tests)
            pack = pack_of(store, self)
            if os.path.exists(pack):
                if self.name in wanted:
                    subprocess.run(["tar", "-xf", pack, "-C", f"{self.folder}/out"], check=True)
                rt.say(f"{self.name} is kept: an earlier build proved the same files over the same libraries", self.out)
                return 0
            status = archive(self, flags) if self.is_static else super().ci(flags, tests)
            if not status:
                keep(store, self)
            return status

    return Keeping


def forget(store, crates):
    """Removes what is kept of these crates as they were before."""
    names = {it.name: os.path.basename(pack_of(store, it)) for it in crates}
    for file in os.listdir(store):
        if names.get(file.split(".")[0], file) != file:
            os.remove(f"{store}/{file}")


def lend(crate, every):
    """Gives the crates below this one the libraries that the kit keeps, and returns the names of those that lack one."""
    kept, lacking = rt.Kept(every), []
    for it in crate.below():
        # (where files stand in the way, the kit takes what it keeps for damaged, and drops it)
        shutil.rmtree(f"{it.folder}/out/rlib", ignore_errors=True)
        if not kept.give(it, False, kept.key(it)):
            lacking.append(it.name)
        kept.is_built(it)
    return lacking


def over_kept(call, name):
    """Does what --lend and --archive say."""
    # (its first call sets a signal's handler, which only the main thread may)
    rtlib.guarded()
    rt.Crate.allowed = rt.handles_of(os.getcwd())
    every = rt.crates_of(os.getcwd())
    crate = next(it for it in every if it.name == name)
    if call == "--archive":
        os.makedirs(f"{crate.folder}/out", exist_ok=True)
        return archive(crate, ["--jobs", str(min(2, rt.processors()))])
    print(*lend(crate, every))
    return 0


def main(store, *words):
    if words[:1] in (("--lend",), ("--archive",)):
        return over_kept(*words)
    os.makedirs(store, exist_ok=True)
    crates = rtlib.crates_below(os.getcwd())
    if words[:1] == ("--take",):
        for crate in crates:
            if crate.name in words[2:] and is_of_gate(crate, os.path.getmtime(words[1])):
                keep(store, crate)
        return 0
    lacking = [it for it in crates if not os.path.exists(pack_of(store, it))]
    if words == ("--lacking",):
        print(*[it.name for it in lacking])
        return 0
    wanted = {it.name for crate in lacking for it in crate.below()}
    wanted |= {it.name for it in crates if not it.makes_rlib()}
    rt.Crate = keeping(store, wanted)
    status = rt.ci()
    if not status:
        forget(store, crates)
    return status


if __name__ == "__main__":
    sys.exit(main(*sys.argv[1:]))
