#!/usr/bin/env python3
"""Tests tools/edits: a copy of a crate is given the edits of this folder, most of which are no wrong answers, and each must be reported for what it is."""
import os
import shutil
import subprocess
import sys
import tempfile

HERE = os.path.dirname(os.path.abspath(__file__))
ROOT = os.path.dirname(os.path.dirname(HERE))
CRATE, BELOW = "api_versions_agreement", ["layout", "utf8", "primitives"]
EXPECTED = {
    "wrong": "refused",
    "comment": "NOT REFUSED",
    "name_gone": "UNFIT",
    "shape_gone": "UNFIT",
    "unaltered": "NOT REFUSED",
    "no_code": "BAD EDIT: it did not reach the prover",
    "text_twice": "BAD EDIT: a text that it replaces stands in src/lib.rt more than once",
    "text_nowhere": "BAD EDIT: a text that it replaces stands in src/lib.rt nowhere",
    "no_file": "BAD EDIT: there is no src/agreement.rt",
    "no_file_named": "BAD EDIT: it names no file",
    "file_of_another_crate": "BAD EDIT: it names no file",
    "nothing": "BAD EDIT: it replaces nothing",
}


def copied(room):
    """What tools/edits needs for the crate, with the edits of this folder in place of the crate's own."""
    shutil.copytree(ROOT + "/tools", room + "/tools")
    os.mkdir(room + "/tests")
    shutil.copy(ROOT + "/tests/faults.txt", room + "/tests/faults.txt")
    for crate in BELOW + [CRATE]:
        shutil.copytree("%s/crates/%s" % (ROOT, crate), "%s/crates/%s" % (room, crate), ignore=shutil.ignore_patterns("out", "must-fail"))
    with open(ROOT + "/crates.txt") as listed, open(room + "/crates.txt", "w") as ours:
        ours.writelines(line for line in listed if line.split(":")[0] in BELOW + [CRATE])
    edits = "%s/crates/%s/must-fail" % (room, CRATE)
    os.mkdir(edits)
    for name in EXPECTED:
        shutil.copy("%s/%s.edit" % (HERE, name), edits)


def reported(room, *words):
    done = subprocess.run(["tools/python", "tools/edits", *words], cwd=room, stdout=subprocess.PIPE, stderr=subprocess.STDOUT, text=True)
    return done.returncode, done.stdout.splitlines()


def unreported(said):
    """The lines that should be there once, and are not."""
    for name, word in EXPECTED.items():
        starts = "edits: %s/%s%s %s" % (CRATE, name, "" if word == "refused" else ":", word)
        if sum(l.startswith(starts) for l in said) != 1:
            yield "there is no line '%s'" % starts


def wrong(room):
    """What tools/edits does not do as it should."""
    status, said = reported(room, CRATE)
    yield from unreported(said)
    if status != 1 or said[-1] != "edits: %d tried, %d bad" % (len(EXPECTED), len(EXPECTED) - 1):
        yield "it ends with status %d and '%s'" % (status, said[-1])
    status, said = reported(room, "still")
    if status != 1 or not any("%s/text_twice: BAD EDIT" % CRATE in l for l in said):
        yield "`still` passes over an edit whose text stands twice"
    # What rt says of the edits is read from a file, as in the gate. Of one it says nothing.
    tried = subprocess.run(["rt", "must-fail", CRATE], cwd=room, stdout=subprocess.PIPE, stderr=subprocess.STDOUT, text=True)
    lines = tried.stdout.splitlines(True)
    with open(room + "/said", "w") as f:
        f.writelines(lines)
    status, said = reported(room, "tried", "said")
    yield from unreported(said)
    with open(room + "/said", "w") as f:
        f.writelines(l for l in lines if "/wrong.edit: " not in l)
    status, said = reported(room, "tried", "said")
    if status != 1 or not any(l.startswith("edits: %s/wrong: NOT TRIED" % CRATE) for l in said):
        yield "an edit that was not tried is passed over"
    # A crate that is not proved as it stands would refuse every edit.
    with open("%s/crates/%s/src/lib.rt" % (room, CRATE), "a") as f:
        f.write("\nfn three() -> u64\n    ensures { result ≡ 3 }\n{\n    4\n}\n")
    status, said = reported(room, CRATE)
    if status != 1 or not any(l.startswith("edits: %s: NOT PROVED as it stands" % CRATE) for l in said):
        yield "a crate that is not proved is passed over"


with tempfile.TemporaryDirectory() as room:
    copied(room)
    found = list(wrong(room))
for line in found:
    print("tests/edits: " + line)
print("tests/edits: %d edits planted, %d wrong" % (len(EXPECTED), len(found)))
sys.exit(1 if found else 0)
