#!/usr/bin/env python3
"""respell: brings the names that this repository's own definitions and laws have to the spelling of today's Rattle: snake case, and an apostrophe for a prime.

usage: python3 tools/respell.py [FOLDER]      once, right after port.py, before its result is committed: the text before port.py is that of HEAD

Functions of src/, exported names, strings, inputs and outputs keep their names. A law that would get the name of its definition ends in _lem.
What it changes: names in specs/, proofs/ and clauses; the edits under must-fail/, which get the words that port.py and this gave to the text that they replace; names between backticks in the pages.
A line that begins 'look:' is for the reader: an edit whose text was not found again, or a parameter with the name of a definition."""
import collections
import difflib
import os
import re
import subprocess
import sys

ROOT = sys.argv[1] if len(sys.argv) > 1 else "."
NAME = r"[^\s(){}\[\].;,@\"«»`]+"
MARKS = r"(?:(?:pub|abbrev|unfoldable|data|record|ruleset|pattern)[ \t]+)*"
DECLARED = re.compile(r"(?m)^[ \t]*" + MARKS + "(" + NAME + r"(?:[ \t]+" + NAME + r")*?)(?:[ \t]*[({][^\n]*?)?[ \t]+:(?=[ \t\n])")
IMPORT = re.compile(r"(?m)^[ \t]*(?:ghost )?(?:pub )?use ([^\s{]+?)\.\{([^}]*)\}")
WORDS = {"pub", "abbrev", "data", "record", "unfoldable", "let", "in", "λ", "module", "_", "elim", "ruleset", "pattern"}
PAGES = ["README.md", "CONTRIBUTING.md", "docs", "tests/faults.txt", "oracle/README.md", "data/README.md"]


def files(ending, *parts):
    for part in parts:
        for folder, folders, names in os.walk(os.path.join(ROOT, part)):
            folders[:] = sorted(d for d in folders if d not in ("out", "target", ".git"))
            for name in sorted(names):
                if name.endswith(ending):
                    yield os.path.relpath(os.path.join(folder, name), ROOT)


def read(path):
    with open(os.path.join(ROOT, path), encoding="utf-8") as f:
        return f.read()


def write(path, text):
    with open(os.path.join(ROOT, path), "w", encoding="utf-8") as f:
        f.write(text)


def before(path):
    """The text of HEAD, where port.py has not been."""
    run = subprocess.run(["git", "show", "HEAD:./" + path], cwd=ROOT, capture_output=True)
    return run.stdout.decode() if run.returncode == 0 else None


def snake(name):
    name = name.replace("′", "'")
    if not re.match("[a-z]", name):
        return name
    name = re.sub(r"(?<=[a-z0-9])([A-Z])(?=[a-z0-9A-Z_'-]|$)", lambda m: "_" + m[1].lower(), name)
    return name.replace("-", "_")


def without_comments(text):
    return re.sub(r"--[^\n]*", "", text)


def is_proof_of_code(path):
    return "/proofs/" in path and os.path.basename(path) in ("Proof.antt", "Answers.antt", "Invariants.antt")


def declarations():
    """The names that specs/ and the law files declare, each with its files; and the names that a file imports from elsewhere."""
    crates = set(os.listdir(os.path.join(ROOT, "crates")))
    declared, lent = collections.defaultdict(set), collections.defaultdict(set)
    for path in files(".antt", "crates"):
        text = without_comments(read(path))
        for found in IMPORT.finditer(text):
            steps = found[1].split(".")
            if not (steps[0] == "Rattle" and steps[1] in crates):
                for name in found[2].split(","):
                    lent[path].update(name.strip().split(" as ")[:1])
        if is_proof_of_code(path):
            continue
        for found in DECLARED.finditer(text):
            for name in found[1].split():
                if name not in WORDS:
                    declared[name].add(path)
    return declared, lent


def renaming(declared):
    """Each name's new name. Where two fall together, the definition has the plain one and the law gets _lem."""
    by_new = collections.defaultdict(list)
    for name in declared:
        by_new[snake(name)].append(name)
    new = {}
    for spelled, names in by_new.items():
        if len(names) == 1:
            new[names[0]] = spelled
            continue
        # the definition: in camel case, or else the one that stands in specs/
        names.sort(key=lambda n: ("-" in n, not re.search("[A-Z]", n), not any("/specs/" in p for p in declared[n])))
        new[names[0]] = spelled
        for name in names[1:]:
            new[name] = spelled + "_lem"
    return {name: spelled for name, spelled in new.items() if name != spelled}


COMMENT = r"(?m:(?:^|(?<=\s))--(?= |$).*$)|//.*"
TOKEN = re.compile(r'"(?:[^"\\\n]|\\.)*"|' + COMMENT + r'|(?<![^\s(){}\[\].;,@"«»`])' + NAME)
# A word of English keeps its dash: of what comments say only names in camel case are spelled anew.
CAMEL = re.compile(r"(?<![\w'-])[a-z]+[0-9]*[A-Z]\w*(?![\w'-])")


def turned(text, new, keep, guarded):
    """The text with its names spelled anew, strings aside. A guarded name changes only where this file declares or imports it, and behind no dot."""

    def one(found):
        name = found[0]
        if name.startswith(("--", "//")):
            said = re.sub(r"`[^`\s]+`", lambda word: "`%s`" % ".".join(part if part in guarded else new.get(part, part) for part in word[0][1:-1].split(".")), name)
            return CAMEL.sub(lambda word: new.get(word[0], word[0]) if word[0] not in keep else word[0], said)
        if name in keep or name not in new:
            return name
        if name in guarded and (found.start() and text[found.start() - 1] == "."):
            return name
        return new[name]

    return TOKEN.sub(one, text)


def brings(text, name, declared, path):
    if path in declared[name]:
        return True
    modules = {os.path.basename(p)[:-5] for p in declared[name]}
    for found in IMPORT.finditer(text):
        if found[1].split(".")[-1] in modules and name in [n.strip().split(" as ")[0] for n in found[2].split(",")]:
            return True
    return False


def tokens(text):
    return re.findall(r"[A-Za-z_0-9ℕℤμλ′'₀-₉≡≢≤<>+*/∷=-]+|\s+|.", text)


def loose(line):
    return re.sub(r"[^a-z0-9]", "", line.lower())


class Lines:
    """The lines of a file before port.py, each with its line of today."""

    def __init__(self, old, new):
        self.old, self.new = old.split("\n"), new.split("\n")
        self.at = {}
        match = difflib.SequenceMatcher(None, [loose(l) for l in self.old], [loose(l) for l in self.new], autojunk=False)
        for tag, i, j, k, l in match.get_opcodes():
            if tag == "equal":
                for n in range(j - i):
                    self.at[i + n] = k + n
        self.places = collections.defaultdict(list)

    def of(self, text):
        found = [i for i, l in enumerate(self.old) if text in l]
        if len(found) != 1:
            return None, None
        i = found[0]
        if i in self.at:
            return self.old[i], self.new[self.at[i]]
        close = difflib.get_close_matches(self.old[i], self.new, 1, 0.5)
        return self.old[i], close[0] if close else None


def carried(old_line, new_line, text):
    """The part of the new line that stands for this part of the old one, and which token became which."""
    a, b = tokens(old_line), tokens(new_line)
    start, end = old_line.index(text), old_line.index(text) + len(text)
    ends, at = [], 0
    for t in a:
        ends.append((at, at + len(t)))
        at += len(t)
    first = next(i for i, (s, e) in enumerate(ends) if s <= start < e)
    last = next(i for i, (s, e) in enumerate(ends) if s < end <= e)
    lead, trail = start - ends[first][0], ends[last][1] - end
    match = difflib.SequenceMatcher(None, [loose(t) or t for t in a], [loose(t) or t for t in b], autojunk=False)
    to, words = {}, {}
    for tag, i, j, k, l in match.get_opcodes():
        if tag == "equal" or (tag == "replace" and j - i == l - k):
            for n in range(j - i):
                to[i + n] = k + n
                words[a[i + n]] = b[k + n]
    if first not in to or last not in to:
        return None, words
    part = "".join(b[to[first] : to[last] + 1])
    # a token that is taken in part was not respelled
    return part[lead : len(part) - trail if trail else len(part)], words


# How port.py spells what is no name: a projection is tight, and an operator has rings for its places.
SPELLED = [
    (r"(?<=[\w)]) \.(?=[a-z0-9])", "."),
    (r"(?<=[\w)]) \.«(\w+)»", r".\1"),
    (r"\((\w+\.\w+)\)", r"\1"),
    (r"(?<![\w◌])_([^\w\s_]+)_(?![\w◌])", r"◌\1◌"),
]


def spelled(text, words, names):
    if names["\0"].endswith(".antt"):
        for old, new in SPELLED:
            text = re.sub(old, new, text)
    return "".join(words.get(t, names.get(t, t)) for t in tokens(text))


def edit(path, names, lines):
    """The edit with the words of today."""
    crate = "/".join(path.split("/")[:2])
    out, made = [], {}
    target = None
    pending = None
    for line in read(path).split("\n"):
        if line.startswith("file: "):
            target = crate + "/" + line[6:].strip()
            if target not in made:
                made[target] = [before(target), read(target) if os.path.exists(os.path.join(ROOT, target)) else None]
            out.append(line)
        elif line.startswith("old: "):
            pending = line[5:]
        elif line.startswith("new: "):
            old, new = pending, line[5:]
            was, now = made[target]
            names["\0"] = target
            if now is not None and now.count(old) == 1:
                new_old, new_new = old, new if target.endswith(".rt") and not changed(names, new) else spelled(new, {}, names)
            elif was is None or now is None:
                new_old, new_new = old, new
            else:
                at = Lines(was, now) if (target, was, now) not in lines else lines[(target, was, now)]
                lines[(target, was, now)] = at
                old_line, new_line = at.of(old)
                new_old, words = carried(old_line, new_line, old) if new_line is not None else (None, {})
                new_new = spelled(new, words, names)
                if new_old is None or now.count(new_old) != 1:
                    print("look: %s: the text that it replaces was not found again: %s" % (path, old))
                    new_old = spelled(old, words, names) if new_old is None else new_old
            if was is not None and was.count(old) == 1:
                made[target][0] = was.replace(old, new)
            if now is not None and now.count(new_old) == 1:
                made[target][1] = now.replace(new_old, new_new)
            out += ["old: " + new_old, "new: " + new_new]
        else:
            out.append(line)
    text = "\n".join(out)
    if text != read(path):
        write(path, text)


def changed(names, text):
    return any(t in names for t in tokens(text))


def main():
    # what port.py respelled of our own names, so that edits and pages follow
    declared, lent = declarations()
    new = renaming(declared)
    guarded = {n for n in new if new[n].endswith("_lem") and "-" not in n}
    for path in list(files(".antt", "crates")) + list(files(".rt", "crates")):
        text = read(path)
        keep = set(lent[path]) | {n for n in guarded if not brings(text, n, declared, path)}
        if path.endswith(".rt"):
            keep |= guarded
        said = turned(text, new, keep, guarded)
        if said != text:
            write(path, said)
    final = {new.get(n, n) for n in declared}
    # from the names before port.py
    names = {"\0": ""}
    for path in files(".antt", "crates"):
        was = before(path)
        if was is None or is_proof_of_code(path):
            continue
        for found in DECLARED.finditer(without_comments(was)):
            for name in found[1].split():
                if name in WORDS or name in final:
                    continue
                to = new.get(name) or new.get(snake(name)) or snake(name)
                if to in final:
                    names[name] = to
    lines = {}
    for path in files(".edit", "crates", "tests/edits"):
        if path.startswith("crates"):
            edit(path, names, lines)
    for page in PAGES:
        for path in [page] if page.endswith((".md", ".txt")) else list(files(".md", page)):
            if path.startswith("docs/src") or not os.path.exists(os.path.join(ROOT, path)):
                continue
            text = read(path)
            said = re.sub(r"`[^`\n]+`", lambda m: TOKEN.sub(lambda f: names.get(f[0], f[0]), m[0]), text)
            if said != text:
                write(path, said)
    for path in files(".rt", "crates"):
        text = read(path)
        for found in re.finditer(r"fn (\w+)(?:<[^>]*>)?\(([^)]*)\)", text):
            for word in re.findall(r"(\w+):", found[2]):
                if word in final and re.search(r"ghost use [^;]*[{ ]" + word + r"[,}]", text):
                    print("look: %s: %s has a parameter %s, which a definition is called" % (path, found[1], word))
    print("respell: %d names" % len(new))


main()
