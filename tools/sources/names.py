"""What names mean: `World` has all crates, `Scope` the names of a file, and `Names` reads the names of a definition or a contract."""
import functools, glob, os, re, subprocess
from collections import namedtuple
from .antt import AnttFile, Group, Unreadable, is_word, nodes_of, place_of, split
from .rattle import Declared, Function, RattleFile

# the kit's libraries under the logic, as the first word of a `use` path; those of Rattle's own begin with `Rattle` and their name, as ours do
KIT = {"Prim", "mathlib", "lib", "native", "borrow", "mir", "denote"}
# what stands in every file without a `use` line: syntax, and names that are built in
SYNTAX = {"→", "×", "=", ":", "_", "Type"}
PRELUDE = {"Unit", "tt", "⊥", "¬", "absurd"}
# types and traits of the kit's std that every source file has without a `use` line, as far as they are used here
STD = {"AllocError", "Box", "Global", "HostRuntime", "Option", "Print", "Result", "String", "Vec"}
# constructors of the kit's types; a pattern that names another name of the kit is refused
KIT_CONSTRUCTORS = {"true", "false", "zero", "suc", "none", "some", "None", "Some", "Ok", "Err", "pos", "negsuc", "[]", "◌∷◌", "tt"}
# where the arguments of an operator go, in its name
HOLE = "◌"
# what an `ensures` calls the reply, and what every clause is lent: what a reference points to, and what may be altered before and after the call (`old` and `new` behind a reference, `entry` and `exit` of a value)
REPLY = "result"
LENT_FIELDS = {"now", "old", "new", "entry", "exit"}

Kit = namedtuple("Kit", "module name")  # something of the kit's libraries, by the module that declares it
Target = namedtuple("Target", "thing constructor")  # what a name means: `thing`, or a constructor of it


class Scope:
    """The names of one file: its own, and those that its `use` lines bring."""

    def __init__(self, world, file):
        self.world, self.file = world, file
        self.brought, self.modules = {}, {}
        for rows in file.uses if isinstance(file, AnttFile) else file.ghosts:
            self.use(rows)
        self.parts = {part: name for name in self.brought if HOLE in name for part in name.split(HOLE) if part}

    def use(self, rows):
        nodes = nodes_of(rows, 1)
        nodes = nodes[place_of(nodes, "use") + 1 :]
        path = nodes[0].text.split(".")
        module = self.world.module(path, self.file)
        items = [node for node in nodes if isinstance(node, Group)]
        if items:
            for part in split(items[0].nodes, ","):
                if part:
                    self.brought[part[-1].text] = (module, part[0].text)
        else:
            self.modules[nodes[-1].text.split(".")[-1]] = module

    @functools.cached_property
    def own(self):
        found = {}
        for definition in self.file.definitions if isinstance(self.file, AnttFile) else []:
            found[definition.name] = Target(definition, None)
            found.update((name, Target(definition, name)) for name in definition.constructors)
        return found

    def lookup(self, name):
        if name in self.own:
            return self.own[name]
        name = self.parts.get(name, name)
        if name in self.brought:
            return self.world.member(*self.brought[name], self.file)
        return self.world.kit_target("Prim", name) if name in PRELUDE else None

    def path(self, parts):
        """What `a.b` means: a constructor behind its type, or a name behind a module."""
        target = self.lookup(parts[0])
        if target and not isinstance(target.thing, Kit) and parts[1] in target.thing.constructors:
            return Target(target.thing, parts[1])
        if parts[0] in self.modules and len(parts) == 2:
            return self.world.member(self.modules[parts[0]], parts[1], self.file)
        if parts[0] == "Rattle" or parts[0] in KIT:
            return self.world.member(self.world.module(parts[:-1], self.file), parts[-1], self.file)
        return None


class Names:
    """The names that a text uses: what each means, and the fields that it takes or gives."""

    def __init__(self, scope):
        self.scope, self.targets, self.fields = scope, [], []
        self.given = set()  # type parameters of a function: what stands behind the dot after one is said by the trait that bounds it

    def refuse(self, line, why):
        raise Unreadable("%s:%d: %s" % (self.scope.file.path, line, why))

    def found(self, target, name, line):
        if target is None:
            self.refuse(line, "what is `%s`? No definition and no `use` line of the file has it" % name)
        self.targets.append(target)

    def statement(self, definition):
        """Reads the type of a definition, and gives the names that are bound behind it."""
        bound = set()
        for block in definition.blocks:
            self.parameters(block.parameters, bound)
        if definition.kind == "function":
            self.term(definition.head, bound)
        else:
            self.parameters(definition.head, bound)
        return bound

    def definition(self, definition):
        bound = self.statement(definition)
        for clause in definition.clauses:
            inner = set(bound)
            self.pattern(clause.patterns, inner)
            self.term(clause.body, inner)
        for member in definition.members:
            self.term(member.nodes, bound)
            bound |= set(member.names) if definition.kind == "record" else set()

    def contract(self, function):
        parameters, self.given = {name for name, _ in function.parameters} | function.given, function.given
        for clause in function.requires:
            self.term(clause, parameters)
        for clause in function.ensures:
            self.term(clause, parameters | {REPLY})

    def term(self, nodes, bound):
        """Reads a term or a type, in which `bound` are variables. What it binds itself reaches to the end of the nodes."""
        bound, at = set(bound), 0
        while at < len(nodes):
            node = nodes[at]
            at += 1
            if isinstance(node, Group):
                self.group(node, bound)
            elif is_word(node, "λ"):
                dot = at + place_of(nodes[at:], ".")
                self.binders(nodes[at:dot], bound)
                at = dot + 1
            elif is_word(node, "let"):
                at = self.let(nodes, at, bound)
            elif is_word(node, "record") and at < len(nodes) and isinstance(nodes[at], Group):
                self.literal(nodes[at], bound)
                at += 1
            else:
                self.atom(node, bound)

    def atom(self, node, bound):
        parts = node.text.split(".")
        if node.kind == "field":
            self.fields.append(node.text)
        elif node.kind == "path" and parts[0] in self.given:
            pass
        elif node.kind == "path" and parts[0] in bound:
            self.fields += parts[1:]
        elif node.kind == "path":
            self.found(self.scope.path(parts), node.text, node.line)
        elif node.kind == "name" and node.text not in bound and node.text not in SYNTAX:
            self.found(self.scope.lookup(node.text), node.text, node.line)

    def let(self, nodes, at, bound):
        """`let x : A = e in`, of which `x` and what follows begin there; where it ends."""
        equals, end = at + place_of(nodes[at:], "="), self.end_of_let(nodes, at)
        left = split(nodes[at:equals], ":")
        for part in left[1:] + [nodes[equals + 1 : end]]:
            self.term(part, bound)
        self.pattern(left[0], bound)
        return end + 1

    def end_of_let(self, nodes, at):
        depth = 0
        for i in range(at, len(nodes)):
            depth += is_word(nodes[i], "let") - is_word(nodes[i], "in")
            if depth < 0:
                return i
        self.refuse(nodes[at].line, "a `let` without its `in`")

    def group(self, group, bound):
        """What stands in brackets: a binder, which is bound from there on, an argument by its name, or a tuple."""
        colon = place_of(group.nodes, ":")
        if colon > 0:
            self.term(group.nodes[colon + 1 :], bound)
            bound |= {node.text for node in group.nodes[:colon]}
        elif group.open == "{" and place_of(group.nodes, "=") == 1:
            self.term(group.nodes[2:], bound)
        else:
            for part in split(group.nodes, ","):
                self.term(part, bound)

    def literal(self, group, bound):
        for part in split(group.nodes, ";"):
            if part:
                if len(part) < 3 or not is_word(part[1], "="):
                    self.refuse(group.line, "a record is not read")
                self.fields.append(part[0].text)
                self.term(part[2:], bound)

    def binders(self, nodes, bound):
        for node in nodes:
            if isinstance(node, Group) and place_of(node.nodes, ":") > 0:
                self.group(node, bound)
            elif isinstance(node, Group):
                self.pattern([node], bound)
            else:
                bound.add(node.text)

    def parameters(self, nodes, bound):
        """Binders such as (x : A) {y : B}, and a type behind them."""
        for node in nodes:
            if isinstance(node, Group):
                self.group(node, bound)
            else:
                self.atom(node, bound)

    def pattern(self, nodes, bound):
        """Binds the variables of a pattern. A name that is a constructor is none."""
        for node in nodes:
            if isinstance(node, Group):
                for part in split(node.nodes, ","):
                    before = set(bound)
                    self.pattern(part, bound)
                    if len(part) > 1 and is_word(part[0], *(bound - before)) and not any(is_word(other, *self.scope.parts) for other in part):
                        self.refuse(node.line, "what constructor is `%s`?" % part[0].text)
            elif node.kind == "path":
                self.found(self.scope.path(node.text.split(".")), node.text, node.line)
            elif node.kind == "name" and node.text != "_":
                target = self.scope.lookup(node.text)
                if target and target.constructor:
                    self.targets.append(target)
                elif target and isinstance(target.thing, Kit):
                    self.refuse(node.line, "is `%s` a constructor of the kit (KIT_CONSTRUCTORS), or a variable?" % node.text)
                else:
                    bound.add(node.text)


class World:
    """All crates of the repository, which is the working folder. A module is an AnttFile, the place of a type of the code (crate and path), or a name of the kit or of a generated module."""

    def __init__(self):
        self.crates = sorted(os.listdir("crates"))

    # ---- files

    @functools.lru_cache(maxsize=None)
    def antt(self, crate, part, modules):
        path = os.path.join("crates", crate, part, *modules) + ".antt"
        return AnttFile(path) if os.path.exists(path) else None

    def antt_files(self, crate, part):
        top = os.path.join("crates", crate, part)
        for path in sorted(glob.glob(top + "/**/*.antt", recursive=True)):
            yield self.antt(crate, part, tuple(os.path.relpath(path, top).removesuffix(".antt").split("/")))

    @functools.lru_cache(maxsize=None)
    def rattle(self, crate, modules):
        for name in ["/".join(modules)] if modules else ["lib", "main"]:
            path = os.path.join("crates", crate, "src", name + ".rt")
            if os.path.exists(path):
                return RattleFile(path, crate, modules)
        return None

    def rattle_files(self, crate):
        top = os.path.join("crates", crate, "src")
        for path in sorted(glob.glob(top + "/**/*.rt", recursive=True)):
            name = os.path.relpath(path, top).removesuffix(".rt")
            yield self.rattle(crate, () if name in ("lib", "main") else tuple(name.split("/")))

    @functools.lru_cache(maxsize=None)
    def scope(self, file):
        return Scope(self, file)

    # ---- modules of antt

    def module(self, path, file):
        if path[0] != "Rattle":
            if path[0] not in KIT:
                raise Unreadable("%s: `%s` is no library that is known" % (file.path, path[0]))
            return ".".join(path)
        crate, part, rest = path[1], path[2], tuple(path[3:])
        if crate not in self.crates:
            if not os.path.isdir(os.path.join(self.kit, crate)):
                raise Unreadable("%s: `%s` is no crate of ours and no library of the kit" % (file.path, ".".join(path)))
            return ".".join(path)
        if part == "proofs" and "/proofs/" not in file.path:
            raise Unreadable("%s: it names %s, but no definition and no contract may rest on proofs/" % (file.path, ".".join(path)))
        if part == "specs" and rest[:1] == ("declared",):
            return crate, rest[1:]
        found = self.antt(crate, part, rest)
        if found is None and part == "specs":
            raise Unreadable("%s: there is no module %s" % (file.path, ".".join(path)))
        return found or ".".join(path)

    def member(self, module, name, file):
        """What a module has under a name."""
        if isinstance(module, str):
            return self.kit_target(module, name)
        if isinstance(module, tuple) and module[1][-1] == "TheVariants":
            found = self.declared(self.rattle(module[0], ()), module[1][:-1])
            if found is None or name not in found.constructors:
                raise Unreadable("%s: %s of crate %s has no variant `%s`" % (file.path, "::".join(module[1][:-1]), module[0], name))
            return Target(found, name)
        if isinstance(module, tuple):
            found = self.declared(self.rattle(module[0], ()), module[1])
            if found is None or found.name != name:
                raise Unreadable("%s: crate %s declares no %s" % (file.path, module[0], "::".join(module[1])))
            return Target(found, None)
        if name in module.by_name:
            return Target(module.by_name[name], None)
        for definition in module.definitions:
            if name in definition.constructors:
                return Target(definition, name)
        raise Unreadable("%s: %s has no `%s`" % (file.path, module.path, name))

    # ---- the kit

    @functools.cached_property
    def kit(self):
        """The folder of the kit's libraries."""
        said = subprocess.run(["rt", "doc"], check=True, capture_output=True, text=True).stdout.strip()
        return os.path.join(os.path.dirname(said), "rattle")

    def kit_target(self, module, name):
        return Target(Kit(*self.declaring(module, name)), name if name in KIT_CONSTRUCTORS else None)

    @functools.lru_cache(maxsize=None)
    def declaring(self, module, name):
        """The module of the kit that declares a name, and the name there: the kit passes names on from module to module."""
        parts = module.split(".")
        if parts[0] != "Rattle":
            return module, name
        if parts[2:4] == ["specs", "declared"]:
            self.check_kit_type(parts[1], parts[4:], name)
            return module, name
        path = os.path.join(self.kit, *parts[1:]) + ".antt"
        if os.path.exists(path):
            given = self.passed_on(path)
            return self.declaring(*given[name]) if name in given else (module, name)
        above = os.path.join(self.kit, *parts[1:-1]) + ".antt"
        # The modules right below `specs` and `proofs` are passed on by Lib.
        above = above if os.path.exists(above) else os.path.join(self.kit, *parts[1:-1], "Lib.antt")
        rows = open(above, encoding="utf-8") if os.path.exists(above) else []
        whole = [row.split()[2] for row in rows if re.fullmatch(r"pub use [^{}]*\.%s\s*" % re.escape(parts[-1]), row)]
        if len(whole) != 1:
            raise Unreadable("the kit has no module %s" % module)
        return self.declaring(whole[0], name)

    def check_kit_type(self, library, path, name):
        """A type of the kit's own code, or a case of an enum of it, must be there: the kit makes the modules of its types as it does those of ours."""
        kind = path[-2] if path[-1] == "TheVariants" else path[-1]
        modules = path[: path.index(kind)] or ["lib"]
        source = os.path.join(self.kit, library, "src", *modules) + ".rt"
        text = open(source, encoding="utf-8").read() if os.path.exists(source) else ""
        found = re.search(r"^pub (struct|enum) %s\b[^{;]*\{([^}]*)\}" % re.escape(kind), text, re.M)
        if not found or path[-1] == "TheVariants" and not re.search(r"\b%s\b" % re.escape(name), found.group(2)):
            raise Unreadable("the kit has no type %s.%s" % (".".join([library] + path), name))

    @functools.lru_cache(maxsize=None)
    def passed_on(self, path):
        """The names that a module of the kit passes on, and where each is from."""
        found = {}
        for module, names in re.findall(r"^pub use ([^\s{}]+)\.\{([^{}]*)\}", open(path, encoding="utf-8").read(), re.M):
            for part in names.split(","):
                words = part.split()
                if words:
                    found[words[-1]] = (module, words[0])
        return found

    # ---- types and functions of the code

    def declared(self, file, path):
        """The type that a path of the code names, seen from a file; None if there is none."""
        path = list(path)
        if len(path) == 1 and path[0] in file.types:
            return file.types[path[0]]
        if path[0] in file.uses:
            path = file.uses[path[0]] + path[1:]
        below = self.rattle(file.crate, file.modules + (path[0],))
        if path[0] == "crate":
            below = self.rattle(file.crate, ())
        elif below is None and path[0] in self.crates:
            below = self.rattle(path[0], ())
        return self.declared(below, path[1:]) if below and len(path) > 1 else None

    def types_of(self, thing):
        """The structs and enums that a declaration, or a function's signature, mentions."""
        found = []
        for name in thing.types:
            path = name.split("::")
            found.append(self.declared(thing.file, path) or self.of_std(thing.file, path))
            if found[-1] is None:
                raise Unreadable("%s:%d: what type is `%s`?" % (thing.file.path, thing.first, name))
        return found

    def of_std(self, file, path):
        """The type of the kit's std that a path names, seen from a file; None if it is none."""
        whole = file.uses.get(path[0], ["std"] if path[0] in STD else []) + path[1:]
        return Kit(".".join(whole[:-1] if whole[1:] else whole), path[-1]) if whole[:1] == ["std"] else None

    def functions(self, crate):
        return [function for file in self.rattle_files(crate) for function in file.functions]

    def name_of(self, function):
        """The path by which others call a function: the shorter one, where the crate's root passes it on."""
        crate, path = function.file.crate, list(function.file.modules) + [function.name]
        if path in self.rattle(crate, ()).passed.values():
            path = path[-1:]
        if function.within:
            path.insert(-1, function.within)
        return "::".join([crate] + path)

    # ---- what something uses

    def uses_of(self, thing):
        """What a definition, a function's contract and signature, or a type of the code names; and the fields that it takes."""
        if isinstance(thing, Kit):
            return [], []
        if isinstance(thing, Declared):
            return self.types_of(thing), []
        names = Names(self.scope(thing.file))
        if isinstance(thing, Function):
            names.contract(thing)
        else:
            names.definition(thing)
        types = self.types_of(thing) if isinstance(thing, Function) else []
        return [target.thing for target in names.targets] + types, names.fields
