"""What `rt ci` has still to prove here, and how long that takes: by what earlier runs on this machine kept, and by the minutes of docs/dev/gate.md.

The toolchain has no word for this. Some keep what a run passed under a name that is a sum of all that was read, others prove everything
anew; so the command rt is loaded here, and asked. All this is its inside, and may change: then nothing is said but why not.
"""
import hashlib
import importlib.machinery
import importlib.util
import json
import os
import re
import shutil

# The minutes of a processor, of what the page has no line for, and the part of the cores that a run has use of.
PROOF, TESTS, EDIT, OF_THE_CORES = 2.0, 0.3, 1.0, 0.85


def toolchain():
    """The command rt, as a module."""
    loader = importlib.machinery.SourceFileLoader("rt", os.path.realpath(shutil.which("rt")))
    made = importlib.util.module_from_spec(importlib.util.spec_from_loader("rt", loader))
    loader.exec_module(made)
    return made


def minutes():
    """Of each crate on the page the minutes of its proof and of its tests."""
    with open("docs/dev/gate.md", encoding="utf-8") as it:
        rows = re.findall(r"^(\w+) +(\d+):(\d+)(?: +(\d+):(\d+))?$", it.read(), re.M)
    return {name: (int(a) + int(b) / 60, int(c) + int(d) / 60 if c else TESTS) for name, a, b, c, d in rows}


def left():
    """The crates whose proof, and those whose tests, no earlier run kept, and how many wrong bodies are to be tried; and how many there are of each."""
    rt = toolchain()
    if not hasattr(rt, "Kept"):
        return everything(rt)
    rt.Crate.allowed = rt.handles_of(os.getcwd())
    crates = rt.crates_of(os.getcwd())
    kept, stamps, proofs, tests, edits, all_edits = rt.Kept(crates), {}, [], [], 0, 0
    for crate in crates:
        # (what stands on a crate that is proved anew is proved anew, unless the library comes out as it was)
        is_known = all(it.name in kept.rlibs for it in crate.below())
        key = kept.key(crate) if is_known else None
        place = kept.place(crate, False, key)
        if key and os.path.isdir(place):
            with open(f"{place}/made.json", encoding="utf-8") as it:
                files = [] if crate.is_program else [tuple(one) for one in json.load(it)["files"]]
            kept.rlibs[crate.name] = hashlib.sha256(repr(files).encode()).hexdigest()
        else:
            proofs.append(crate.name)
        if crate.has_tests() and not (key and os.path.isdir(kept.place(crate, True, key))):
            tests.append(crate.name)
        for edit in rt.edits_of(crate)[0]:
            sums = [it for it in (key, rt.stamp_of(crate, stamps)) if it]
            all_edits += 1
            edits += not any(kept.tried(kept.of_edit(edit, it)) for it in sums)
    return proofs, tests, edits, (len(crates), sum(it.has_tests() for it in crates), all_edits)


def everything(rt):
    """The same, where no run keeps anything."""
    crates = rt.rtlib.crates_below(os.getcwd())
    proofs, tests = [it.name for it in crates], [it.name for it in crates if it.has_tests()]
    edits = sum(len(rt.edits_of(it)[0]) for it in crates)
    return proofs, tests, edits, (len(proofs), len(tests), edits)


def sentence():
    """What is said before a run."""
    try:
        proofs, tests, edits, whole = left()
    except (Exception, SystemExit) as why:  # whatever a toolchain does that is another
        return f"what earlier runs kept cannot be told ({type(why).__name__}: {why}); from nothing see docs/dev/gate.md"
    if not proofs and not tests and not edits:
        return "earlier runs on this machine kept each proof; only the tests and programs run, in a few minutes"
    known, cores = minutes(), os.cpu_count() or 1
    spent = sum(known.get(it, (PROOF, TESTS))[0] for it in proofs) + sum(known.get(it, (PROOF, TESTS))[1] for it in tests) + edits * EDIT
    lasts = max(spent / cores / OF_THE_CORES, max((known.get(it, (PROOF, TESTS))[0] for it in proofs), default=0))
    costs = f"some {spent:.0f} minutes of a processor, and {lasts:.0f} on these {cores} cores where nothing else runs"
    if (len(proofs), len(tests), edits) == whole:
        return f"to prove from nothing: {whole[0]} crates, the tests of {whole[1]}, {whole[2]} wrong bodies; {costs}"
    names = " ".join(proofs) if len(proofs) < 8 else f"{' '.join(proofs[:6])} and {len(proofs) - 6} more"
    return (f"to prove anew: {len(proofs)} of {whole[0]} crates{f' ({names})' if names else ''}, the tests of {len(tests)} of {whole[1]}, "
            f"{edits} of {whole[2]} wrong bodies; {costs}")


if __name__ == "__main__":
    print(sentence())
