"""Rattle files: their `use` lines, functions with their contracts, structs, enums and names of types."""
import os, re
from .antt import Unreadable, nodes_of

NUMBERS = {"u8", "u16", "u32", "u64", "usize", "i8", "i16", "i32", "i64", "isize", "f32", "f64", "bool", "char", "str"}
PUB = r"^(pub |pub\(crate\) )?"
CLOSING = {"(": ")", "{": "}", "[": "]", "<": ">"}


def type_names(text):
    """The names of structs and enums in types; those in front of a colon are names of fields."""
    found = re.findall(r"(?<![\w'])[A-Za-z_]\w*(?:::\w+)*", re.sub(r"\w+\s*:(?!:)", " ", text))
    return [name for name in found if name not in NUMBERS and name not in ("dyn", "impl", "mut", "pub") and not name.isupper()]


def closing(text, at):
    """Where the bracket that opens there closes. The `>` of an arrow closes none."""
    depth = 0
    for i in range(at, len(text)):
        depth += (text[i] == text[at]) - (text[i] == CLOSING[text[at]] and text[i - 1 : i + 1] not in ("->", "=>"))
        if depth == 0:
            return i
    raise Unreadable("a bracket is not closed")


def each_use(text):
    """The paths of a `use` line, each by itself: `a::{b, c::d}` has a::b and a::c::d."""
    head, brace, rest = text.partition("{")
    if not brace:
        return [text.strip()] if text.strip() else []
    end = closing(brace + rest, 0)
    if (brace + rest)[end + 1 :].strip():
        raise Unreadable("a `use` line is not read: %s" % text)
    parts, depth = [""], 0
    for letter in (brace + rest)[1:end]:
        depth += (letter == "{") - (letter == "}")
        if letter == "," and depth == 0:
            parts.append("")
        else:
            parts[-1] += letter
    found = [inner for part in parts for inner in each_use(part)]
    return [head.strip() + inner if inner != "self" else head.strip().removesuffix("::") for inner in found]


def at_commas(text):
    """The parts between the commas outside all brackets."""
    parts, depth = [""], 0
    for i, letter in enumerate(text):
        depth += (letter in "([{<") - (letter in ")]}>" and text[i - 1 : i + 1] not in ("->", "=>"))
        if letter == "," and depth == 0:
            parts.append("")
        else:
            parts[-1] += letter
    return parts


def given_types(text):
    """The names of the parameters in `<..>` behind the name of a function, a type or `impl`."""
    return {part.split(":")[0].strip().removeprefix("const ") for part in at_commas(text.strip()[1:-1])} if text.strip() else set()


def without_brackets(text):
    shorter = re.sub(r"\{[^{}]*\}|\([^()]*\)", "", text)
    return text if shorter == text else without_brackets(shorter)


class Declared:
    """A struct or an enum of the code, or a name for a type: its fields or constructors, and the types that it mentions."""

    def __init__(self, file, kind, name, first, lines, comments, given, body):
        self.file, self.kind, self.name, self.first, self.lines, self.comments = file, kind, name, first, lines, comments
        self.fields = re.findall(r"(\w+)\s*:(?!:)", body) if kind == "struct" else []
        self.constructors = re.findall(r"[A-Z]\w*", without_brackets(body)) if kind == "enum" else []
        parts = [part.strip() for part in at_commas(body)]
        self.field_types = dict(re.match(r"(?:pub(?:\(crate\))? )?(\w+)\s*:\s*(.*)", part, re.S).groups() for part in parts if part) if self.fields else {}
        # Of the cases of an enum that have one value without a name, its type.
        self.held = {part.partition("(")[0]: part.partition("(")[2].removesuffix(")").strip(" ,\n") for part in parts if "(" in part} if kind == "enum" else {}
        self.types = [name for name in type_names(body) if name not in self.constructors and name not in given]

    def __str__(self):
        return "%s: %s" % (self.file.path, self.name)


class Function:
    """A function: its parameters with their types, the type of its result, and the nodes of its clauses. `within` is the type or the trait in whose block it stands; `given` are names of types that stand for any."""

    def __init__(self, file, name, first, is_pub, is_entry, within, given, parameters, result, requires, ensures):
        self.file, self.name, self.first, self.is_pub, self.is_entry, self.within = file, name, first, is_pub, is_entry, within
        self.parameters, self.result, self.requires, self.ensures, self.given = parameters, result, requires, ensures, given
        self.lent = [name for name, kind in parameters if re.search(r"&('\w+ )?mut\b", kind)]
        self.types = [name for name in type_names(" ".join([kind for _, kind in parameters] + [result])) if name.split("::")[0] not in given]

    def __str__(self):
        return "%s: %s" % (self.file.path, self.name)


class Within:
    """An `impl` or a `trait`: where its block begins and ends, the type or trait that it is of, and whether all in it can be called from outside, as what a trait has can."""

    def __init__(self, first, last, name, given, is_of_trait):
        self.first, self.last, self.name, self.given, self.is_of_trait = first, last, name, given, is_of_trait


class RattleFile:
    def __init__(self, path, crate, modules):
        self.path, self.crate, self.modules = path, crate, modules
        self.rows = open(path, encoding="utf-8").read().split("\n")
        self.code = [re.sub(r"//.*", "", row).rstrip() for row in self.rows]
        self.text = "\n".join(self.code)
        self.uses, self.passed, self.ghosts = {}, {}, []
        for match in re.finditer(r"^(pub |ghost )?use (.*?);", self.text, re.M | re.S):
            self.use(match.group(1), match.group(2))
        self.types = {d.name: d for d in self.read_types()}
        self.functions = list(self.read_functions())

    def use(self, mark, text):
        if mark == "ghost ":
            self.ghosts.append(("use " + text).split("\n"))
            return
        for one in each_use(" ".join(text.split())):
            path, _, other = one.partition(" as ")
            path = path.strip().split("::")
            self.uses[other.strip() or path[-1]] = path
            if mark:
                self.passed[path[-1]] = path[1:] if path[0] == "crate" else path

    def line(self, at):
        return self.text.count("\n", 0, at) + 1

    def above(self, line):
        """The first line of the comments and attributes above a line."""
        while line > 1 and self.rows[line - 2].strip() and (not self.code[line - 2] or self.code[line - 2].startswith("#[")):
            line -= 1
        return line

    def read_types(self):
        for match in re.finditer(PUB + r"(struct|enum|type) (\w+)(\s*<[^{(;=]*>)?\s*(?:([{(])|=([^;]*);|;)", self.text, re.M):
            kind, name, given, bracket, other = match.group(2, 3, 4, 5, 6)
            last = closing(self.text, match.start(5)) if bracket else match.end() - 1
            first = self.above(self.line(match.start()))
            rows = range(first - 1, self.line(last))
            lines = sum(1 for i in rows if self.code[i].strip())
            comments = sum(1 for i in rows if self.rows[i].strip() and not self.code[i].strip())
            body = self.text[match.end() : last] if bracket else other or ""
            yield Declared(self, kind, name, first, lines, comments, given_types(given or ""), body)

    def read_blocks(self):
        for match in re.finditer(r"^(?:pub |pub\(crate\) )?(impl|trait)\b([^{;]*)\{", self.text, re.M):
            head, given = match.group(2), ""
            if match.group(1) == "impl" and head.startswith("<"):
                end = closing(head, 0)
                given, head = head[: end + 1], head[end + 1 :]
            head = head.split(" where ")[0].split("\n")[0].strip()
            of_trait, is_for, kind = head.rpartition(" for ")
            name = re.match(r"[\w:]+", kind.strip().lstrip("&")) or re.match(r".*", "self")
            if match.group(1) == "trait" and "<" in head:
                given = head[head.find("<") : closing(head, head.find("<")) + 1]
            # In a trait its own name stands for whatever type it is of.
            stands = given_types(given) | ({name.group()} if match.group(1) == "trait" else set())
            yield Within(match.start(), closing(self.text, match.end() - 1), name.group(), stands, bool(is_for) or match.group(1) == "trait")

    def read_functions(self):
        heads = list(re.finditer(r"^[ \t]*(pub |pub\(crate\) )?(?:final |const )?(extern \"C\" )?fn (\w+)\s*([(<])", self.text, re.M))
        if len(heads) < len(re.findall(r"\bfn \w", self.text)):
            raise Unreadable("%s: a function in it is not read" % self.path)
        blocks = list(self.read_blocks())
        for match in heads:
            start, given = match.end() - 1, set()
            if match.group(4) == "<":
                end = closing(self.text, start)
                given = given_types(self.text[start : end + 1])
                start = end + 1
            end = closing(self.text, start)
            within = next((block for block in blocks if block.first < match.start() < block.last), None)
            if within is None and self.text[match.start()] in " \t":
                raise Unreadable("%s:%d: %s stands in no block that is read" % (self.path, self.line(match.start(3)), match.group(3)))
            parameters = [self.parameter(part, within) for part in at_commas(self.text[start + 1 : end]) if part.strip()]
            result, end = self.result(end + 1)
            result = re.sub(r"\bSelf\b(?!::)", within.name if within else "Self", result)
            clauses = self.clauses(match.group(3), end)
            line = self.line(match.start(3))
            is_entry = "#[unsafe(no_mangle)]" in self.code[self.above(line) - 1 : line]
            is_pub = match.group(1) == "pub " or within is not None and within.is_of_trait
            given |= within.given | {"Self"} if within else set()
            yield Function(self, match.group(3), line, is_pub and not self.is_program(), is_entry, within and within.name, given, parameters, result, *clauses)

    def result(self, at):
        """The type of a result, which stands behind the parameters, and where the contract begins or the body."""
        stop = re.compile(r"\b(?:requires|ensures|where)\b|[{;]")
        start, depth = at, 0
        while depth or not stop.match(self.text, at):
            depth += (self.text[at] in "([<") - (self.text[at] in ")]>" and self.text[at - 1] != "-")
            at += 1
        result = self.text[start:at].strip().removeprefix("->").strip()
        if self.text.startswith("where", at):
            at = re.compile(r"\brequires\b|\bensures\b|[{;]").search(self.text, at).start()
        return " ".join(result.split()), at

    def is_program(self):
        """What a program has nobody can call from outside."""
        return os.path.exists(os.path.join("crates", self.crate, "src", "main.rt"))

    def parameter(self, text, within):
        """The name of a parameter, and its type."""
        name, colon, kind = text.partition(":")
        name = " ".join(name.split())
        if not colon:
            if within is None or not re.fullmatch(r"(&('\w+ )?)?(mut )?self", name):
                raise Unreadable("%s: the parameter `%s` is not read" % (self.path, name))
            return "self", re.sub(r"(mut )?self$", lambda m: (m.group(1) or "" if name[0] == "&" else "") + within.name, name)
        return name.removeprefix("mut "), re.sub(r"\bSelf\b(?!::)", within.name if within else "Self", kind.strip())

    def clauses(self, name, at):
        """The clauses of a contract, which begins there: those of `requires`, and those of `ensures`."""
        found = {"requires": [], "ensures": []}
        while self.text[at] not in "{;":
            # A clause may have a name. What holds of memory, with a star, is not read.
            word = re.compile(r"(requires|ensures)(?: +\w+)?\s*\{").match(self.text, at)
            if not word:
                raise Unreadable("%s:%d: the contract of %s is not read" % (self.path, self.line(at), name))
            end = closing(self.text, word.end() - 1)
            found[word.group(1)].append(nodes_of(self.text[word.end() : end].split("\n"), self.line(word.end())))
            at = re.compile(r"\s*").match(self.text, end + 1).end()
        return found["requires"], found["ensures"]
