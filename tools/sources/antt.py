"""antt files: tokens, `use` lines, and the definitions with their clauses, constructors and fields."""
import functools, re
from collections import namedtuple

Token = namedtuple("Token", "kind text line")  # kind: name, path, field, number or mark
Group = namedtuple("Group", "open nodes line")  # what stands in brackets
Block = namedtuple("Block", "first lines comments parameters")  # a `module _ (..) where`: its own lines, and its parameters
Member = namedtuple("Member", "names nodes")  # constructors, or a field, and their type
Clause = namedtuple("Clause", "patterns body")

MARKS = {"unfoldable", "abbrev", "pub", "axiom"}
WORD = re.compile(r'«[^»]*»|"(?:[^"\\]|\\.)*"|[(){}.;,@]|[^\s(){}.;,@"«»]+')
PUNCTUATION = set("(){}.;,@")
COMMENT = re.compile(r"(?:^|(?<=\s))--(?=[\s-]|$)")


class Unreadable(Exception):
    """A text that these tools do not read, or a name that means nothing."""


# ---- tokens


def tokens(rows, first):
    """The tokens of rows without comments; the first is that line of its file. `a.b` is a path, `.b` right behind a bracket a field, and the dot of `λ x. e` a mark."""
    words = []
    for line, row in enumerate(rows, first):
        end = -1
        for match in WORD.finditer(row):
            words.append((match.group(), line, match.start() == end))
            end = match.end()
    words.append((" ", 0, False))
    result, at = [], 0
    while words[at][0] != " ":
        word, line, is_tight = words[at]
        at += 1
        if word == "." and words[at][2] and words[at][0] not in PUNCTUATION:
            if not is_tight:
                raise Unreadable("line %d: a field stands behind a space" % line)
            result.append(Token("field", bare(words[at][0]), line))
            at += 1
        elif word in PUNCTUATION:
            result.append(Token("mark", word, line))
        elif word[0].isdigit():
            result.append(Token("number", word, line))
        else:
            parts = [bare(word)]
            while words[at][0] == "." and words[at][2] and words[at + 1][2] and words[at + 1][0] not in PUNCTUATION:
                parts.append(bare(words[at + 1][0]))
                at += 2
            result.append(Token("path" if len(parts) > 1 else "name", ".".join(parts), line))
    return result


def bare(word):
    return word[1:-1] if word[0] == "«" else word


def nest(flat):
    """Tokens, with each pair of brackets as one group."""
    stack = [[]]
    for token in flat:
        if token.kind == "mark" and token.text in "({":
            stack.append([token])
        elif token.kind == "mark" and token.text in ")}":
            inner = stack.pop()
            if not stack:
                raise Unreadable("line %d: a bracket closes that was not opened" % token.line)
            stack[-1].append(Group(inner[0].text, inner[1:], inner[0].line))
        else:
            stack[-1].append(token)
    if len(stack) > 1:
        raise Unreadable("line %d: a bracket is not closed" % stack[-1][0].line)
    return stack[0]


def nodes_of(rows, first):
    return nest(tokens(rows, first))


def is_word(node, *texts):
    return isinstance(node, Token) and node.text in texts and node.kind in ("name", "mark")


def place_of(nodes, *texts):
    """Where the first of these words stands, outside all brackets; -1 if none does."""
    return next((i for i, node in enumerate(nodes) if is_word(node, *texts)), -1)


def split(nodes, *texts):
    """The parts between these words, outside all brackets."""
    parts = [[]]
    for node in nodes:
        if is_word(node, *texts):
            parts.append([])
        else:
            parts[-1].append(node)
    return parts


# ---- files


class Definition:
    """A data type, a record or a function. `head` is its type, behind the parameters of a data type or a record; `blocks` are those that it stands in."""

    def __init__(self, file, kind, name, first, blocks, head, members):
        self.file, self.kind, self.name, self.first, self.blocks, self.head, self.members = file, kind, name, first, blocks, head, members
        self.clauses, self.lines, self.comments = [], 0, 0
        named = [name for member in members for name in member.names]
        self.constructors = named if kind == "data" else []
        self.fields = named if kind == "record" else []

    def __str__(self):
        return "%s: %s" % (self.file.path, self.name)


class AnttFile:
    """One antt file: its `use` lines, and its definitions in order."""

    def __init__(self, path):
        self.path = path
        self.rows = open(path, encoding="utf-8").read().split("\n")
        if any("{-" in row for row in self.rows):
            raise Unreadable("%s: comments in {- -} are not read" % path)
        self.code = [COMMENT.split(row, maxsplit=1)[0].rstrip() for row in self.rows]
        self.uses = self.read_uses()
        self.header = 0  # comments above the definitions

    @functools.cached_property
    def definitions(self):
        found = []
        try:
            self.read(0, len(self.code), [], found)
        except Unreadable as why:
            raise Unreadable("%s: %s" % (self.path, why))
        if len({d.name for d in found}) < len(found):
            raise Unreadable("%s: two definitions have one name" % self.path)
        return found

    @functools.cached_property
    def by_name(self):
        return {d.name: d for d in self.definitions}

    def read_uses(self):
        """The rows of each `use`: its braces may stand on several."""
        found = []
        for i, row in enumerate(self.code):
            if re.match(r"(unfoldable )?(pub )?use ", row):
                last = i
                while "{" in row and "}" not in self.code[last]:
                    last += 1
                found.append(self.code[i : last + 1])
        return found

    def lines_in(self, first, last):
        return sum(1 for row in self.code[first:last] if row.strip())

    def comments_in(self, first, last):
        return sum(1 for row, code in zip(self.rows[first:last], self.code[first:last]) if row.strip() and not code.strip())

    def items(self, first, last):
        """The pieces of a block: each begins at the block's own indent, and goes on with deeper lines, or one that closes a bracket."""
        full = [i for i in range(first, last) if self.code[i].strip()]
        if not full:
            return []
        indents = {i: len(self.code[i]) - len(self.code[i].lstrip()) for i in full}
        own = indents[full[0]]
        if min(indents.values()) < own:
            raise Unreadable("line %d: it stands right of its block" % (full[0] + 1))
        starts = [i for i in full if indents[i] == own and self.code[i].lstrip()[0] not in ")}]"]
        return [(a, max(i for i in full if i < b) + 1) for a, b in zip(starts, starts[1:] + [last])]

    def read(self, first, last, blocks, found):
        before = first
        for start, end in self.items(first, last):
            nodes = nodes_of(self.code[start:end], start + 1)
            while is_word(nodes[0], *MARKS):
                nodes = nodes[1:]
            above = self.comments_in(before, start)
            before = end
            where = place_of(nodes, "where")
            body = nodes[where].line if where > 0 else end
            if is_word(nodes[0], "use", "mod", "infix", "infixl", "infixr"):
                self.header += above
            elif is_word(nodes[0], "module", "mutual"):
                body = body if is_word(nodes[0], "module") else start + 1
                block = Block(start + 1, self.lines_in(start, body), above, nodes[2:where] if is_word(nodes[0], "module") else [])
                self.read(body, end, blocks + [block], found)
            elif is_word(nodes[0], "open", "ruleset"):
                raise Unreadable("line %d: `%s` is not read" % (start + 1, nodes[0].text))
            else:
                owner = self.piece(nodes, start, body, end, blocks, found)
                owner.lines += self.lines_in(start, end)
                owner.comments += above + self.comments_in(start, end)

    def piece(self, nodes, start, body, end, blocks, found):
        """A data type, a record, a signature, or a clause of a function above it; gives the definition that it belongs to."""
        colon, equals = place_of(nodes, ":"), place_of(nodes, "=")
        if is_word(nodes[0], "data", "record") and body < end:
            head = nodes[2 : place_of(nodes, "where")]
            found.append(Definition(self, nodes[0].text, nodes[1].text, start + 1, blocks, head, self.members(body, end)))
            return found[-1]
        if colon > 0 and (equals < 0 or colon < equals):
            found.append(Definition(self, "function", nodes[0].text, start + 1, blocks, nodes[colon + 1 :], []))
            return found[-1]
        owner = next((d for d in reversed(found) if is_word(nodes[0], d.name)), found[-1] if found else None)
        if owner is None or owner.kind != "function" or equals < 1 and not is_word(nodes[0], "unfolding"):
            raise Unreadable("line %d: neither a signature nor a clause" % (start + 1))
        if equals > 0:
            owner.clauses.append(Clause(nodes[1:equals], nodes[equals + 1 :]))
        return owner

    def members(self, first, last):
        found = []
        for start, end in self.items(first, last):
            nodes = nodes_of(self.code[start:end], start + 1)
            nodes = nodes[1:] if is_word(nodes[0], "pub") else nodes
            colon = place_of(nodes, ":")
            found.append(Member([node.text for node in nodes[:colon]], nodes[colon + 1 :]))
        return found
