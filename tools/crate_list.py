"""crates.txt: each crate with the crates that it depends on."""
import os


def listed():
    deps = {}
    with open("crates.txt") as lines:
        for line in lines:
            words, colon, rest = line.split("#")[0].partition(":")
            if colon:
                # A static library has the word `staticlib` behind its name.
                deps[words.split()[0]] = rest.split()
    return deps


def reached(named, deps):
    """The named crates and all that they depend on, libraries of the kit too."""
    seen, todo = [], list(named)
    while todo:
        crate = todo.pop(0)
        if crate not in seen:
            seen.append(crate)
            todo += deps.get(crate, [])
    return seen


def resting(named, deps):
    """The named crates and all that rest on them, in the order of crates.txt."""
    return [c for c in deps if set(named) & set(reached([c], deps))]


def is_program(crate):
    return os.path.exists("crates/%s/src/main.rt" % crate)
