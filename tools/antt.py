"""Reads .antt files: what they declare, and terms in a form in which the names of variables don't count.

`Library` reads specs/ and proofs/ of all crates, follows each name by the `use` lines to where it is declared, and says of a
statement or a definition which text it is: two that differ in names of variables, in braces for parentheses, in `(x y : A)` for
`(x : A) (y : A)` or in a named premise that nothing cites are one text.
"""
import functools, glob, os, re
from collections import namedtuple

ROOT = os.path.dirname(os.path.dirname(os.path.abspath(__file__)))
STRING = r'"(?:\\.|[^"\\])*"'
TOKEN = re.compile(rf'{STRING}|«[^»]*»|[(){{}};,⟦⟧]|\.|@|[^\s(){{}}.;,@"«»⟦⟧]+')
CLOSE = {"(": ")", "{": "}", "[": "]", "⟦": "⟧"}
MARKS = ("pattern", "unfoldable", "abbrev", "pub", "axiom")
CONSTRUCTORS = {"suc", "zero", "tt", "refl", "pos", "negsuc", "true", "false"}
BUILT_IN = {"Type", "Unit", "tt", "absurd", "elim", "as", "record", "let", "in"}

# What a file declares; `kind` is record, data, abbrev or lemma; `telescope` has the binders of the modules around it;
# `signature` is the type's text, `clauses` are the texts of its equations, fields or constructors, and `body` is all of them,
# with their `where` blocks.
Declared = namedtuple("Declared", "file line name kind telescope signature clauses body is_public is_local")


def without_comment(line):
    """The line up to its comment; what is quoted stays."""
    for found in re.finditer(rf"{STRING}|(?:(?<=\s)|^)--.*", line):
        if found[0].startswith("--"):
            return line[: found.start()].rstrip()
    return line.rstrip()


def read(path):
    with open(os.path.join(ROOT, path), encoding="utf-8") as file:
        return file.read()


# ---- what a file declares


def lines_of(text):
    """The lines that say something: their numbers, how far they are set in, and their text."""
    for number, line in enumerate(text.split("\n"), 1):
        line = without_comment(line)
        if line.strip():
            yield number, len(line) - len(line.lstrip(" ")), line.strip()


def items_of(lines):
    """The items of a block: each a line as far left as the first, with those set in below it, or closing its brackets."""
    items = []
    for line in lines:
        if items and (line[1] > lines[0][1] or line[2][0] in ")]}"):
            items[-1].append(line)
        else:
            items.append([line])
    return items


def at_where(item):
    """The item's lines up to a `where`, which may end a line, and the lines behind it."""
    for at, (number, indent, text) in enumerate(item):
        if text == "where" or text.endswith(" where"):
            rest = item[at + 1 :]
            return [*item[:at], (number, indent, text[: -len("where")].rstrip())], rest
    return item, []


def text_of(lines):
    return "\n".join(text for _, _, text in lines if text)


def parted(text):
    """The marks, the name and what follows of a signature, or none where the text is no signature."""
    tokens = text.split(None, 6)
    marks = []
    while tokens and tokens[0] in MARKS:
        marks.append(tokens.pop(0))
    found = re.match(r"\s*(\S+)\s*(?:\{[^}:]*\}\s*)?:\s+(.*)", " ".join(text.split()[len(marks) :]), re.S)
    return (marks, found[1], found[2]) if found and found[1] not in ("(", "{") else None


def declarations(file, lines, telescope=(), is_local=False):
    """What a block declares, with the modules in it and the `where` blocks of its equations."""
    last, clauses, bodies = None, [], []

    def ended():
        if last:
            yield last._replace(clauses=tuple(clauses), body="\n".join(bodies))

    for item in items_of(lines):
        first = item[0][2]
        word = next((it for it in first.split() if it != "pub"), "")
        signature = parted(text_of(item))
        if word in ("use", "mod", "open", "infix", "infixl", "infixr", "ruleset", "syntax", "unfolding"):
            continue
        if word == "module":
            yield from ended()
            last, clauses, bodies = None, [], []
            head, body = at_where(item)
            binders = re.sub(r"^(?:pub )?module\s+\S+", "", text_of(head))
            yield from declarations(file, body, (*telescope, binders), is_local)
        elif word in ("record", "data"):
            yield from ended()
            last, clauses, bodies = None, [], []
            head, body = at_where(item)
            name, _, rest = re.sub(r"^(?:pub )?(?:record|data)\s+", "", text_of(head)).partition(" ")
            fields = tuple(text_of(it) for it in items_of(body)) if body else ()
            yield Declared(file, item[0][0], name, word, telescope, rest, fields, "\n".join(fields), "pub" in first.split()[0], is_local)
        elif signature and not (last and first.split()[0] == last.name):
            yield from ended()
            marks, name, rest = signature
            kind = "abbrev" if "abbrev" in marks else "lemma"
            last = Declared(file, item[0][0], name, kind, telescope, rest, (), "", "pub" in marks, is_local)
            clauses, bodies = [], []
        else:
            head, body = at_where(item)
            clauses.append(text_of(head))
            bodies.append(text_of(item))
            if body:
                yield from declarations(file, body, telescope, True)
    yield from ended()


# ---- terms


@functools.lru_cache(maxsize=None)
def nested(text):
    """The tokens of a term; a group in brackets is a list that begins with its bracket, and a field keeps its dot."""
    stack, end = [[""]], None
    for found in TOKEN.finditer(text):
        token = found[0]
        glued = found.start() == end
        end = found.end()
        if token in CLOSE:
            stack.append([token])
        elif len(stack) > 1 and token == CLOSE[stack[-1][0]]:
            group = stack.pop()
            stack[-1].append(group)
        elif token == "." and glued and text[end : end + 1].strip() and text[end] not in ".)":
            stack[-1].append("field")
        elif stack[-1][-1] == "field":
            stack[-1][-1] = "." + token
        else:
            stack[-1].append(token)
    while len(stack) > 1:
        group = stack.pop()
        stack[-1].append(group)
    return stack[0][1:]


def divided(items, at, stops=("λ", "let")):
    """The parts of a term between tokens; behind a λ or a let nothing is divided, since they reach to the end."""
    parts, is_open = [[]], True
    for item in items:
        if is_open and item == at:
            parts.append([])
        else:
            is_open = is_open and item not in stops
            parts[-1].append(item)
    return parts


def binder(item):
    """The names and the type of a group such as (x y : A) or {x : A}, or none."""
    if isinstance(item, list) and item[0] in "({" and ":" in item:
        at = item.index(":")
        if at > 1 and all(isinstance(it, str) and not it.startswith(".") for it in item[1:at]):
            return item[1:at], item[at + 1 :]
    return None


def pattern_names(items):
    """The variables that a pattern binds."""
    for item in items:
        if isinstance(item, list):
            yield from pattern_names(item[1:])
        elif (item[0].isalpha() and item[0].islower() or item[0] in "«") and item not in CONSTRUCTORS and item != "record":
            yield item


class Terms:
    """Terms of one file as texts: a variable is the number of binders around its own, and a name is what `of` says it is."""

    def __init__(self, of, arguments=lambda word: ()):
        self.of, self.arguments, self.free = of, arguments, set()

    def type_of(self, items, bound):
        parts, out, bound = divided(items, "→"), [], dict(bound)
        for number, part in enumerate(parts):
            is_last = number == len(parts) - 1
            groups = [binder(it) for it in part]
            if part and all(groups) and not is_last:
                for names, inside in groups:
                    for name in names:
                        out.append(f"({self.type_of(inside, bound)})")
                        bound[name] = bound[""] = bound.get("", -1) + 1
            elif is_last:
                out.append(self.product(part, bound))
            else:
                out.append(f"({self.product(part, bound)})")
                bound[""] = bound.get("", -1) + 1
        return " → ".join(out)

    def product(self, items, bound):
        parts, out, bound = divided(items, "×"), [], dict(bound)
        for part in parts:
            group = binder(part[0]) if len(part) == 1 and len(parts) > 1 else None
            if group:
                for name in group[0]:
                    out.append(f"({self.type_of(group[1], bound)})")
                    bound[name] = bound[""] = bound.get("", -1) + 1
            else:
                out.append(self.plain(part, bound))
                bound[""] = bound.get("", -1) + (len(parts) > 1)
        return " × ".join(out)

    def plain(self, items, bound):
        if len(items) == 1 and isinstance(items[0], list) and items[0][0] == "(" and "," not in items[0] and not binder(items[0]):
            return self.type_of(items[0][1:], bound)
        out, bound, at = [], dict(bound), 0
        while at < len(items):
            item = items[at]
            at += 1
            if item == "λ":
                while at < len(items) and items[at] != ".":
                    self.bind([items[at]], bound)
                    at += 1
                return " ".join([*out, "λ.", self.type_of(items[at + 1 :], bound)])
            if item == "let":
                at = self.let(items, at, bound, out)
            elif isinstance(item, list):
                out.append(self.group(item, bound, items[at - 2] if at > 1 else ""))
            elif item[0] == ".":
                out[-1:] = ["".join(out[-1:]) + item]
            else:
                out.append(self.name(item, bound))
        return " ".join(out)

    def let(self, items, at, bound, out):
        """`let x = e in b`, `let x : T = e in b`: the type is left out; gives where the body begins."""
        names = []
        while at < len(items) and items[at] not in (":", "="):
            names.append(items[at])
            at += 1
        while at < len(items) and items[at] != "=":
            at += 1
        begun, depth = at + 1, 1
        while at < len(items) and depth:
            at += 1
            depth += (items[at : at + 1] == ["let"]) - (items[at : at + 1] == ["in"])
        out.append(f"let {self.type_of(items[begun:at], bound)} in")
        self.bind(names, bound)
        return at + 1

    def bind(self, items, bound):
        for item in items:
            found = binder(item)
            for name in found[0] if found else [item] if isinstance(item, str) else list(pattern_names(item[1:])):
                bound[name] = bound[""] = bound.get("", -1) + 1

    def group(self, item, bound, before):
        kind, inner = item[0], item[1:]
        if kind == "[":
            return f"[ {' | '.join(self.case(it, bound) for it in divided(inner, '|', ()))} ]"
        if kind == "{" and before == "record" or kind == "{" and ";" in inner:
            return f"{{ {'; '.join(self.given(it, bound) for it in divided(inner, ';', ()) if it)} }}"
        if kind == "{" and inner[1:2] == ["="]:
            return f"{{{self.given(inner, bound)}}}"
        found = binder(item)
        if found:
            return f"({self.type_of(found[1], bound)})"
        return f"({', '.join(self.type_of(it, bound) for it in divided(inner, ','))})"

    def given(self, items, bound):
        """A field or an argument by name: the name stays."""
        return f"{items[0]} = {self.type_of(items[2:], bound)}" if items[1:2] == ["="] else self.type_of(items, bound)

    def case(self, items, bound):
        if "↦" not in items:
            return self.type_of(items, bound)
        at, bound = items.index("↦"), dict(bound)
        self.bind(list(pattern_names(items[:at])), bound)
        return f"{self.plain(items[:at], bound)} ↦ {self.type_of(items[at + 1 :], bound)}"

    def name(self, word, bound):
        if word in bound:
            return f"#{bound[word]}"
        taken = [self.name(it, bound) for it in self.arguments(word)]
        return f"({' '.join([self.of(word), *taken])})" if taken else self.of(word)


# ---- all files


class Library:
    def __init__(self):
        self.declared, self.uses, self.modules, self.given_on = {}, {}, {}, {}
        paths = glob.glob(os.path.join(ROOT, "crates", "*", "specs", "**", "*.antt"), recursive=True)
        paths += glob.glob(os.path.join(ROOT, "crates", "*", "proofs", "**", "*.antt"), recursive=True)
        for path in sorted(paths):
            self.read_file(os.path.relpath(path, os.path.join(ROOT, "crates")))
        self.known, self.needed = {}, {}
        self.own = {file: {it.name for it in all if not it.is_local} for file, all in self.declared.items()}
        for file, all in self.declared.items():
            for it in all:
                if it.kind == "data":
                    self.own[file].update(part.split(":")[0].replace("pub ", "").strip() for part in it.clauses)
        # (which definition stands for those that are equal to it)
        self.stands_for = {}

    def read_file(self, file):
        text = read("crates/" + file)
        lines = list(lines_of(text))
        self.declared[file] = list(declarations(file, lines))
        uses, modules, given_on = {}, {}, {}
        for public, said in re.findall(r"(?m)^ *(pub )?use ([^\s{]+(?:\{[^}]*\})?(?: as \S+)?)", text):
            path, brace, names = said.partition("{")
            path, _, other = path.partition(" as ")
            if not brace:
                module, _, name = path.rpartition(".")
                uses[other or name] = (module, name)
                modules[other or name] = path
            for it in filter(None, map(str.strip, names.rstrip("}").split(","))):
                it, _, other = it.partition(" as ")
                whole = path + it
                module, _, name = whole.rpartition(".")
                uses[other or name] = (module, name)
                modules[other or name] = whole
                if public:
                    given_on[other or name] = (module, name)
        self.uses[file], self.modules[file], self.given_on[file] = uses, modules, given_on

    def file_of(self, module):
        """The file of a module's path, Rattle.CRATE.specs.A.B, or none."""
        parts = module.split(".")
        file = "/".join(parts[1:]) + ".antt"
        return file if parts[0] == "Rattle" and file in self.declared else None

    def origin(self, module, name):
        """Where a name that a module offers is declared: a file of the repository, or a module of the kit."""
        file = self.file_of(module)
        while file and name not in self.own[file] and name in self.given_on[file]:
            module, name = self.given_on[file][name]
            file = self.file_of(module)
        if file:
            return file, name
        # (the kit gives on its words from module to module)
        is_ours = module.split(".")[1:2] and os.path.isdir(os.path.join(ROOT, "crates", module.split(".")[1]))
        return (module if is_ours else "kit"), name

    def names(self, file):
        """What a file's names stand for; an operator is known by each of its marks, too."""
        if file not in self.known:
            found = {name: self.origin(*it) for name, it in self.uses[file].items()}
            found.update({name: (file, name) for name in self.own[file]})
            for name, thing in list(found.items()):
                for mark in name.split("◌") if "◌" in name else []:
                    found.setdefault(mark, thing)
            self.known[file] = found
        return self.known[file]

    def needs(self, file):
        """Of each declaration of a file the parameters of the modules around it that it, or what it cites there, speaks of."""
        if file not in self.needed:
            all = [it for it in self.declared[file] if it.telescope and not it.is_local]
            groups = {it.name: groups_of(it) for it in all}
            words = {it.name: words_in(nested(it.signature)) | words_in(nested(it.body)) for it in all}
            found = {name: set() for name in words}
            grows = True
            while grows:
                grows = False
                for name in words:
                    new = words[name].union(*(found[it] for it in words[name] & found.keys()))
                    for names, inside in reversed(groups[name]):
                        new |= words_in(inside) if new & set(names) else set()
                    new &= {it for names, _ in groups[name] for it in names}
                    grows, found[name] = grows or new != found[name], new
            self.needed[file] = {it: [n for names, _ in groups[it] for n in names if n in found[it]] for it in found}
        return self.needed[file]

    def terms(self, it):
        known, needed, itself = self.names(it.file), self.needs(it.file), (it.file, it.name)

        def of(word):
            thing = known.get(word)
            if thing is None:
                if word[0].isalpha() and word not in BUILT_IN:
                    terms.free.add(word)
                return word
            thing = self.stands_for.get(thing, thing)
            return "SELF" if known[word] == itself else thing[1] if thing[0] == "kit" else f"{thing[0]}:{thing[1]}"

        terms = Terms(of, lambda word: needed.get(word, ()) if known.get(word) == (it.file, word) else ())
        return terms

    def behind_telescope(self, it, items):
        """A statement behind those parameters of the modules around it that it needs."""
        wanted = self.needs(it.file).get(it.name, ())
        kept = [["(", *(name for name in names if name in wanted), ":", *inside] for names, inside in groups_of(it)]
        kept = [group for group in kept if group[1] != ":"]
        return [*kept, "→", *items] if kept else items

    def text(self, it):
        """A declaration's text, in which the names of variables don't count."""
        terms = self.terms(it)
        if it.kind in ("record", "data"):
            return f"{it.kind} {self.members(it, terms)}"
        said = terms.type_of(self.behind_telescope(it, nested(it.signature)), {})
        if it.kind == "abbrev" and not is_claim(nested(it.signature)):
            said += " := " + " ;; ".join(self.equation(it, clause, terms) for clause in it.clauses)
            said += "".join(it.body.partition("where")[1:])
        return said

    def is_closed(self, it):
        """Whether a statement speaks of nothing that only the places around it know."""
        terms = self.terms(it)
        terms.type_of(nested(it.signature), {})
        return not terms.free

    def members(self, it, terms):
        bound, out = {}, []
        for item in nested(it.signature):
            if binder(item):
                out.append(terms.type_of(binder(item)[1], bound))
                terms.bind([item], bound)
        for clause in it.clauses:
            name, _, said = clause.removeprefix("pub ").partition(":")
            out.append(f"{name.strip()} : {terms.type_of(nested(said), bound)}")
            if it.kind == "record":
                bound[name.strip()] = bound[""] = bound.get("", -1) + 1
        return " ; ".join(out)

    def equation(self, it, clause, terms):
        items, bound = nested(clause), {}
        at = items.index("=") if "=" in items else len(items)
        terms.bind(list(self.needs(it.file).get(it.name, ())), bound)
        terms.bind(list(pattern_names(items[1:at])), bound)
        patterns = terms.plain(items[1:at], bound) if at > 1 else ""
        return f"{patterns} = {terms.type_of(items[at + 1 :], bound)}"

    def rests_on(self, it):
        """The crates whose words the declaration cites, by its text; what is equal to another definition is its own crate's."""
        merged, self.stands_for = self.stands_for, {}
        found = re.findall(r"(?<![\w.])(?:Rattle\.)?(\w+)[./](?:specs|proofs)\b", self.text(it))
        self.stands_for = merged
        return {crate for crate in found if os.path.isdir(os.path.join(ROOT, "crates", crate))}


def groups_of(it):
    """The parameters of the modules around a declaration: their names and types."""
    return [binder(group) for text in it.telescope for group in nested(text) if binder(group)]


def is_claim(items):
    """Whether a type is plainly a proposition: an equation or an order."""
    return any(it in ("≡", "≢", "≤", "<", "↔", "IsTrue", "⊥") for it in divided(items, "→")[-1])


def words_in(items):
    found = set()
    for item in items:
        if isinstance(item, list):
            found |= words_in(item[1:])
        else:
            found.add(item)
    return found
