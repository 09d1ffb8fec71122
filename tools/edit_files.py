"""Must-fail edits: a line 'file:', then pairs of lines 'old:' and 'new:', as `rt must-fail` reads them. A line that starts otherwise is a comment."""
import glob
import os


class BadEdit(Exception):
    """The edit cannot be planted; the words say why."""


def all_of(crate):
    """The edits of a crate, which `rt ci` tries."""
    return sorted(glob.glob("crates/%s/must-fail/*.edit" % crate))


def label(edit):
    """CRATE/NAME, as tests/faults.txt and the documents name an edit."""
    return "%s/%s" % (edit.split("/")[1], os.path.basename(edit)[: -len(".edit")])


def pairs(edit):
    """Each replacement: file, old text, new text."""
    at = old = None
    with open(edit) as lines:
        for line in lines.read().splitlines():
            if line.startswith("file: "):
                at = line[len("file: "):]
            elif line.startswith("old: "):
                old = line[len("old: "):]
            elif line.startswith("new:"):
                yield at, old, line[len("new:"):].removeprefix(" ")
                old = None
    if old is not None:
        raise BadEdit("an 'old:' has no 'new:'")


OF_A_CRATE = ("src/", "specs/", "proofs/")


def edited(edit, folder, within=OF_A_CRATE):
    """The files in the folder that the edit changes, with their new texts."""
    texts = {}
    for at, old, new in pairs(edit):
        if at is None or not at.startswith(within) or ".." in at.split("/"):
            raise BadEdit("it names no file under %s" % ", ".join(within))
        path = os.path.join(folder, at)
        if not os.path.isfile(path):
            raise BadEdit("there is no %s" % at)
        if not old:
            raise BadEdit("a 'new:' has no 'old:'")
        if path not in texts:
            with open(path) as f:
                texts[path] = f.read()
        times = texts[path].count(old)
        if times != 1:
            raise BadEdit("a text that it replaces stands in %s %s" % (at, "more than once" if times else "nowhere"))
        texts[path] = texts[path].replace(old, new)
    if not texts:
        raise BadEdit("it replaces nothing")
    return texts


def plant(edit, folder, within=OF_A_CRATE):
    """Carries the edit out in the folder, which is a copy."""
    for path, text in edited(edit, folder, within).items():
        with open(path, "w") as f:
            f.write(text)
