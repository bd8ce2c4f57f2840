#!/usr/bin/env python3
"""What must be believed: the definitions that the contracts of the public calls unfold to.

`docs/trusted.py > docs/TRUSTED.md` writes it; `docs/trusted.py --check` exits with 1 if that file is not what the
contracts give; `docs/trusted.py --files` says of every file of specs/ how much of it is reached;
`docs/trusted.py --call NAME` lists the definitions of one call. The `ensures` of a call are read, each name is resolved
by the imports of its file, and definitions are followed to the standard library. A name that no import, declaration or
binder explains is an error; `result`, parameters, fields, and the file's own variants and constants need no import."""
import re
import sys
import textwrap
from pathlib import Path

HERE = Path(__file__).resolve().parent.parent
PAGE = HERE / "docs" / "TRUSTED.md"
CRATES = HERE / "crates"
NATIVE = """sparse::validate sparse::from_triplets square_root::sqrt whole_log store_log hungarian_match check_match
match_gap check_largest row_index write_sheet read_sheet read_canonical_sheet build_cost_graph build_general_graph
whole_symmetric_graph whole_general_graph log_factors unsymmetric_factors exponents apply_exponents
log_factors_by_rule factors_by_number compute_infnorm compute_onepass compute_symmetric compute_scaling""".split()

TOKEN = re.compile(r"\.?«[^»]*»|[(){};,]|[^\s(){};,«»]+")
HEAD = re.compile(r"^(?:(?:abbrev|unfoldable|pub) )*(?:(record|data) (\S+)|(\S+) :)")
USE = re.compile(r"^(?:ghost )?use ([^\s{;]+?)(?:\.\{([^}]*)\})?(?: as ([^\s;]+))?;?$", re.M)
TYPE = re.compile(r"^(?:pub )?(?:enum|struct) (\w+)[^{;]*\{(.*?)^\}", re.M | re.S)
PLAIN = re.compile(r"^(?:[\d.]+|0x[\dA-F_]+|[∗→=:|._×λ⊥]|Type|where|record|let|in|Unit|tt)$")
# of the prover and of the kit; a library `Rattle.NAME` that crates.txt does not list is the kit's too
LIBRARIES = ("lib.", "native.", "mathlib.", "Prim.", "borrow.", "mir.")


def crate_names():
    lines = (HERE / "crates.txt").read_text().splitlines()
    return [line.split(":")[0].split()[0] for line in lines if line and not line.startswith("#")]


OURS = set(crate_names())


def module_of(path):
    """The module that an import names, as crate and dotted path; None for the prover's libraries and the kit's."""
    found = re.match(r"Rattle\.(\w+)\.(specs|proofs)\.(.+)$", path)
    if path.startswith(LIBRARIES) or found and found[1] not in OURS:
        return None
    if not found:
        raise SystemExit(f"trusted.py: an import that is not understood: {path}")
    return found[1], found[3] if found[2] == "specs" else f"proofs.{found[3]}"


class Scope:
    """The names that a file imports: each to (module, name), or to None for libraries of the prover and of the kit."""

    def __init__(self, text):
        self.names, self.aliases = {}, {}
        for path, names, alias in USE.findall(text):
            if not path.startswith(("Rattle.", *LIBRARIES)):
                continue
            module = module_of(path)
            if not names:
                self.aliases[alias or path.split(".")[-1]] = module
            for name in filter(None, (word.strip() for word in names.split(","))):
                real, _, other = name.partition(" as ")
                for part in [other or real, *(other or real).split("◌")]:
                    if part:
                        self.names[part] = module and (module, real)

    def find(self, word):
        """(True, target) if an import explains the word; the target is None for names of the prover and of the kit."""
        if word in self.names:
            return True, self.names[word]
        first, dot, name = word.partition(".")
        if dot and name and first in self.aliases:
            module = self.aliases[first]
            return True, module and (module, name.partition(".")[0])
        if dot and first in self.names:
            return True, self.names[first]
        return False, None


class Declaration:
    """A declaration: its lines without comments and blank ones, and the names that it mentions."""

    def __init__(self, file, name, kind):
        self.file, self.name, self.kind = file, name, kind
        self.lines, self.words, self.targets = [], set(), set()


def bare(line):
    """A line without its texts in quotes and without a comment."""
    return re.sub(r"(^|\s)--.*$", "", re.sub(r'"[^"]*"', " ", line))


def free_words(tokens, bound):
    """The words of a term that are not bound in it; `bound` grows by its binders."""
    words, place = [], 0
    while place < len(tokens):
        token, before, after = tokens[place], tokens[place - 1:place], tokens[place + 1:place + 2]
        if token == "λ":
            end = next(k for k in range(place, len(tokens)) if tokens[k].endswith("."))
            names, typed = lambda_binders(tokens[place + 1:end + 1])
            bound.update(names)
            words += typed
            place = end
        elif token in "({" and (names := binders(tokens, place)):
            bound.update(names)
            place += len(names)
        elif token == "let":
            bound.update(after)
            place += 1
        elif after != ["="] or before not in (["{"], [";"]):
            words.append(token)
        place += 1
    return [word for word in words if first_part(word) not in bound]


def first_part(word):
    """The name that fields are taken of, as x of x.old and of x.pattern.n; the word itself if it begins with a dot."""
    return word.partition(".")[0] or word


def lambda_binders(tokens):
    """The names that `λ .. .` binds, and the words of their types."""
    names, typed, in_type = [], [], False
    for token in tokens:
        word = token.rstrip(".")
        in_type = token == ":" or in_type and token != ")"
        if word and word not in "():":
            (typed if in_type else names).append(word)
    return names, typed


def binders(tokens, place):
    """The names of `(a b : ..` or `{a b : ..` at an opening bracket, none if it is something else."""
    names = []
    for token in tokens[place + 1:]:
        if token == ":":
            return names
        if token in "(){};,=→λ" or token.startswith("."):
            break
        names.append(token)
    return []


def words_of(unit, name, scope, local, bound):
    """The free words of one clause or signature. In a clause, words before `=` are patterns and bind."""
    tokens = TOKEN.findall(unit)
    clause = tokens and tokens[0] == name and tokens[1:2] != [":"]
    bound = set(bound)
    words = []
    if clause and "=" in tokens:
        cut = tokens.index("=")
        for token in tokens[1:cut]:
            known, target = scope.find(token)
            constructor = token in local and local[token].name != token or (known and (
                target is None or "TheVariants" in target[0][1] or not target[1][0].islower()
                or target[1] in CONSTRUCTORS))
            if constructor or token in "(){},":
                words.append(token)
            else:
                bound.add(token)
        tokens = tokens[cut + 1:]
    return words + free_words(tokens, bound)


CONSTRUCTORS = set()


class File:
    """A file of specs/: its declarations by name, constructors by the name of their data."""

    def __init__(self, crate, path):
        self.crate, self.path = crate, path
        self.text = path.read_text()
        self.scope = Scope(self.text)
        self.known, self.order = {}, []
        self.parse()

    def parse(self):
        current = None
        for raw in self.text.splitlines():
            line = bare(raw).rstrip()
            if not line or re.match(r"(pub )?(use|mod) ", line):
                continue
            if (head := HEAD.match(line)) and not line.startswith(" "):
                current = Declaration(self, head[2] or head[3], head[1] or "name")
                self.order.append(current)
                for part in filter(None, [current.name, *current.name.split("◌")]):
                    self.known[part] = current
            current.lines.append(line)
        for each in self.order:
            if each.kind == "data":
                for line in each.lines[1:]:
                    if found := re.match(r"^  (?:pub )?(\S+) :", line):
                        self.known[found[1]] = each
                        CONSTRUCTORS.add(found[1])

    def units(self, each):
        """The declaration cut into signature, clauses, fields of a record, and what stands below a `where`."""
        units, below = [], False
        for line in each.lines:
            if each.kind == "name" and line.strip() == "where":
                below = True
                continue
            field = each.kind != "name" and re.match(r"^  (pub )?\S+ :", line)
            local = below and len(line) - len(line.lstrip()) == 4
            fresh = field or local or not line.startswith((" ", "}"))
            if fresh:
                units.append([line])
            else:
                units[-1].append(line)
        return [" ".join(unit) for unit in units]

    def resolve(self, each, declared):
        """Fills the targets of a declaration; complains of words that nothing explains."""
        fields, local = set(), set(re.findall(r"^    (\S+) :", "\n".join(each.lines), re.M))
        for unit in self.units(each):
            if unit.startswith("unfolding "):
                continue
            unit = re.sub(r"^(?:(?:abbrev|unfoldable|pub) )+", "", unit)
            field = re.match(r"^  (?:pub )?(\S+) :(.*)$", unit) if each.kind != "name" else None
            if field:
                words = free_words(TOKEN.findall(field[2]), set(fields))
                fields.add(field[1])
            else:
                unit = re.sub(r"^(record|data) ", "", unit)
                if each.kind != "name":
                    parameters = set()
                    words = free_words(TOKEN.findall(unit), parameters)
                    fields |= parameters
                else:
                    name = each.name if not unit.startswith(" ") else unit.split()[0]
                    words = words_of(unit, name, self.scope, self.known, local)
            for word in words:
                self.explain(each, word, declared)

    def explain(self, each, word, declared):
        word = word.rstrip(".") or word
        if word.startswith(".") or word in "(){};,":
            return
        known, target = self.scope.find(word)
        if own := self.known.get(word) or self.known.get(first_part(word)):
            if own is not each:
                each.targets.add(own)
        elif known:
            if target:
                each.targets.add(declared(target, f"{self.path}: {each.name}"))
        elif not PLAIN.match(word):
            complain(f"{self.path.relative_to(HERE)}: {each.name}: what is `{word}`?")


COMPLAINTS = []


def complain(text):
    COMPLAINTS.append(text)


class Proofs:
    """A file of proofs/: what its statements name. A law of a section has the section's parameters too."""

    def __init__(self, crate, path):
        self.crate, self.path = crate, path
        self.lines = [bare(line).rstrip() for line in path.read_text().splitlines()]
        self.scope = Scope("\n".join(self.lines))
        self.laws = set(re.findall(r"^ *pub (\S+) :", "\n".join(self.lines), re.M))

    def statement(self, name):
        """The statement of a public law with the heads of its sections, or the whole of an abbreviation or record."""
        heads, found = [], re.compile(rf"^( *)((?:abbrev|unfoldable|pub|record|data) )*{re.escape(name)} ")
        for at, line in enumerate(self.lines):
            depth = len(line) - len(line.lstrip())
            if line:
                heads = [head for head in heads if len(head) - len(head.lstrip()) < depth]
            if line.lstrip().startswith("module "):
                heads.append(line)
            if (law := found.match(line)) and not line.lstrip().startswith("use "):
                more = [line]
                for next_line in self.lines[at + 1:]:
                    if next_line and not next_line.startswith(law[1] + " "):
                        break
                    more.append(next_line)
                yield " ".join(heads + more)

    def named(self, name, seen):
        """The imported names in a statement, through the file's own abbreviations."""
        for text in self.statement(name):
            for word in TOKEN.findall(text):
                word = word.rstrip(".")
                known, target = self.scope.find(word)
                if target:
                    yield target
                elif word and word not in seen and any(re.match(rf" *(abbrev|unfoldable|(pub )?record) (pub )?"
                                                                rf"{re.escape(word)} ", line) for line in self.lines):
                    seen.add(word)
                    yield from self.named(word, seen)


class Rust:
    """A file of src/: its enums and structs as declarations, and its functions with their contracts."""

    def __init__(self, crate, path):
        self.crate, self.path = crate, path
        self.text = re.sub(r"//.*", "", path.read_text())
        self.scope = Scope(self.text)
        self.types = {}
        # what a clause names without an import: constants, and variants with their types
        self.plain = {name: set() for name in re.findall(r"^(?:pub )?const (\w+):", self.text, re.M)}
        for name, body in TYPE.findall(self.text):
            each = self.types[name] = Declaration(self, name, "declared")
            each.lines = [line for line in body.splitlines() if line.strip()] + ["head", "tail"]
            each.body = body
            self.plain.update((variant, {each}) for variant in re.findall(r"^ *([A-Z]\w*)", body, re.M))
        self.uses = dict((path.split("::")[-1], path) for path in re.findall(r"^use ([\w:]+);", self.text, re.M))

    def named_types(self, text):
        """The enums and structs that a piece of Rust names, as (crate, module, name)."""
        for word in re.findall(r"[\w:]*\b[A-Z]\w*", text):
            path = (self.uses.get(word) or word).split("::")
            if len(path) == 1:
                yield self.crate, self.path.stem, word
            elif path[0] == "crate":
                yield self.crate, "::".join(path[1:-1]) or "lib", path[-1]
            elif path[0] in self.modules():
                yield self.crate, path[0], path[-1]
            else:
                yield path[0], "::".join(path[1:-1]) or "lib", path[-1]

    def modules(self):
        return set(re.findall(r"^(?:pub )?mod (\w+);", self.text, re.M))

    def contract(self, name):
        """The head of a function: its parameters with the answer's type, and the texts of its `ensures`."""
        found = re.search(rf"^ *pub (?:extern \"C\" )?fn {name}\(|^fn {name}\(", self.text, re.M)
        if not found:
            raise SystemExit(f"trusted.py: {self.path} has no function {name}")
        rest = self.text[found.end() - 1:]
        head = rest[:re.search(r"\b(ensures|requires)\b|\{", rest).start()]
        ensures, at = [], len(head)
        while more := re.match(r"\s*(ensures|requires)\b[^{]*\{", rest[at:]):
            start = at = at + more.end()
            depth = 1
            while depth:
                depth += {"{": 1, "}": -1}.get(rest[at], 0)
                at += 1
            if more[1] == "ensures":
                ensures.append(rest[start:at - 1])
        return head, ensures


class House:
    """All crates."""

    def __init__(self):
        self.specs, self.rust, self.proofs = {}, {}, {}
        for crate in crate_names():
            for path in sorted((CRATES / crate / "specs").rglob("*.antt")):
                if path.stem != "Lib" and not path.with_suffix("").is_dir():
                    dotted = ".".join(path.relative_to(CRATES / crate / "specs").with_suffix("").parts)
                    self.specs[crate, dotted] = File(crate, path)
            for path in sorted((CRATES / crate / "src").rglob("*.rt")):
                module = "::".join(path.relative_to(CRATES / crate / "src").with_suffix("").parts)
                self.rust[crate, module] = Rust(crate, path)
            for path in sorted((CRATES / crate / "proofs").glob("*.antt")):
                if path.stem != "Lib":
                    self.proofs[crate, f"proofs.{path.stem}"] = Proofs(crate, path)
        for file in self.specs.values():
            for each in file.order:
                file.resolve(each, self.declared)
        for file in self.rust.values():
            for each in file.types.values():
                each.targets = set(self.types_in(file, each.body)) - {each}

    def types_in(self, file, text):
        for crate, module, name in file.named_types(text):
            there = self.rust.get((crate, module))
            if there and name in there.types:
                yield there.types[name]

    def declared(self, target, where):
        """The declaration that an import names."""
        (crate, dotted), name = target
        if dotted.startswith("declared."):
            parts = dotted.removesuffix(".TheVariants").split(".")[1:]
            return self.rust[crate, "::".join(parts[:-1]) or "lib"].types[parts[-1]]
        file = self.specs.get((crate, dotted))
        if not file or name not in file.known:
            raise SystemExit(f"trusted.py: {where}: no {name} in {crate}.specs.{dotted}")
        return file.known[name]

    def stated(self, name):
        """What the statements of the theorems of this name speak of."""
        todo = [(file, name) for file in self.proofs.values() if [*file.statement(name)]]
        done, targets = set(), set()
        while todo:
            file, name = todo.pop()
            for module, other in file.named(name, set()):
                if not module[1].startswith("proofs."):
                    targets.add(self.declared((module, other), f"{file.path}: {name}"))
                elif (module, other) not in done and module in self.proofs:
                    done.add((module, other))
                    todo.append((self.proofs[module], other))
        return targets

    def roots(self, crate, module, name):
        """What the contract of a call names itself."""
        file = self.rust[crate, module]
        head, ensures = file.contract(name)
        call = Declaration(file, name, "call")
        call.targets |= set(self.types_in(file, head))
        parameters = {"result", "self"}.union(*((p, f"«{p}»") for p in re.findall(r"(\w+):", head)))
        for text in ensures:
            for word in free_words(TOKEN.findall(text), set(parameters)):
                word = word.rstrip(".") or word
                known, target = file.scope.find(word)
                if target:
                    call.targets.add(self.declared(target, f"{file.path}: {name}"))
                elif not known and word in file.plain:
                    call.targets |= file.plain[word]
                elif not known and not word.startswith(".") and word not in "(){};," and not PLAIN.match(word):
                    complain(f"{file.path.relative_to(HERE)}: {name}: what is `{word}`?")
        return call.targets


def closure(targets):
    reached, todo = set(), list(targets)
    while todo:
        each = todo.pop()
        if each not in reached:
            reached.add(each)
            todo += each.targets
    return reached


def lines(declarations):
    return sum(len(each.lines) for each in declarations)


def c_calls(house):
    for (crate, module), file in house.rust.items():
        if crate == "suontarvi":
            for name in re.findall(r"pub extern \"C\" fn (suontarvi_\w+)\(", file.text):
                yield name, closure(house.roots(crate, module, name))


def native_calls(house):
    """The calls of GUARANTEES.md's table: public functions of these names."""
    for call in NATIVE:
        where, _, name = call.rpartition("::")
        places = [(crate, module) for (crate, module), file in house.rust.items()
                  if re.search(rf"^pub fn {name}\(", file.text, re.M) and where in ("", crate)]
        if not places:
            raise SystemExit(f"trusted.py: no public function {call}")
        for crate, module in places:
            yield f"{crate}::{module}::{name}".replace("::lib::", "::"), closure(house.roots(crate, module, name))


def programs(house):
    """What is told of an input (text_program), and the answer that it is made of."""
    answers = re.search(r"(\w+)::answer\(", house.rust["text_program", "lib"].text)[1]
    told = set().union(*(house.roots("text_program", "lib", name) for name in ("after_read", "read_input", "tell")))
    yield "ties and pairs", closure(told | house.roots(answers, "lib", "answer"))


def theorems(house):
    """The theorems that GUARANTEES.md and the section "Promises at length" of PROOFS.md name."""
    at_length = (HERE / "docs" / "PROOFS.md").read_text().partition("## Promises at length\n")[2].partition("\n## ")[0]
    page = (HERE / "docs" / "GUARANTEES.md").read_text() + at_length
    laws = set().union(*(file.laws for file in house.proofs.values()))
    for name in sorted(laws & set(re.findall(r"`([^`\s]+[_-][^`\s]+)`", page))):
        yield name, closure(house.stated(name))


def all_declarations(house):
    return {each for file in house.specs.values() for each in file.order}


def files(house):
    """For each file of specs/: how many of its declarations, and of their lines, are reached, and what is not."""
    public = set().union(*(found for roots in (c_calls, programs, native_calls, theorems) for _, found in roots(house)))
    for file in house.specs.values():
        inside = [each for each in file.order if each in public]
        left = [each.name for each in file.order if each not in public]
        yield (f"{file.path.relative_to(CRATES)}: {len(inside)} of {len(file.order)} names, {lines(inside)} of "
               f"{lines(file.order)} lines; not reached: {' '.join(left) or 'none'}")


HEADING = """# What must be believed

Made by `docs/trusted.py` from the files; `docs/trusted.py --check` compares. A contract is as good as the definitions
that it unfolds to. This page lists them: for each call of the C interface and for the two programs every definition
that its `ensures` names, and every one that these name, down to the words of the standard library and of the prover
(`Rattle.std`, `lib`, `Prim`), which are not counted. Names are resolved by the imports of each file, and a word that
nothing explains is an error. Enums and structs of the code that definitions speak of are counted too.
`docs/trusted.py --call NAME` lists those of one call.

A line is one of a declaration: comments, blank lines and imports are left out. What need not be read to know what is
promised: the code itself, all of `proofs/`, and `specs/inner/`, which has invariants and what inner functions ask and
promise each other.
"""


def wrapped(line):
    """A line of prose or of a list within 120 characters; a table's row stays whole."""
    if len(line) <= 120 or line.startswith("|") or "\n|" in line:
        return line
    indent = "  " if line.startswith("- ") else ""
    body = textwrap.fill(line.rstrip("\n"), 120, subsequent_indent=indent, break_long_words=False,
                         break_on_hyphens=False)
    return body + "\n" * (len(line) - len(line.rstrip("\n")))


def listing(chosen, mark):
    """A line for each file with a chosen declaration: its lines, and the names with their marks."""
    for file in sorted({each.file for each in chosen}, key=lambda file: (crate_names().index(file.crate), file.path)):
        inside = file.order if isinstance(file, File) else list(file.types.values())
        names = ", ".join(f"`{each.name}`{mark(each)}" for each in inside if each in chosen)
        yield wrapped(f"- {file.path.relative_to(CRATES)}, {lines(chosen & set(inside))} of {lines(inside)}: {names}")


def page(house):
    calls = [*c_calls(house), *programs(house)]
    union = set().union(*(found for _, found in calls))
    native = set().union(*(found for _, found in native_calls(house)))
    every = all_declarations(house)
    inner = {each for each in every if "inner" in each.file.path.relative_to(CRATES).parts}
    beside = every - inner - union - native
    yield HEADING
    yield wrapped(
        f"Together the calls below reach {len(union)} definitions of {lines(union)} lines, and with the native calls "
        f"of GUARANTEES.md's table {len(union | native)} of {lines(union | native)}. All of `specs/` has {len(every)} "
        f"definitions of {lines(every)} lines. Of these lines {lines(inner)} are in `specs/inner/`, and "
        f"{lines(beside)} others are reached by no call; the latter are listed last.\n")
    yield "| call | definitions | lines | files |\n|---|---|---|---|"
    for name, found in [*calls, ("all of these", union)]:
        yield f"| `{name}` | {len(found)} | {lines(found)} | {len({each.file for each in found})} |"
    yield "\n## What is reached, by file\n"
    yield "Behind each file: its lines that are reached, and all. A star marks what only native calls reach.\n"
    yield from listing(union | native, lambda each: "" if each in union else "*")
    yield "\n## What no call reaches\n"
    yield ("Outside `inner/`: what theorems of GUARANTEES.md and PROOFS.md speak of, the table of samples, and single "
           "names.\n")
    yield from listing(beside, lambda each: "")


def one_call(house, name):
    """The definitions that the contract of one call unfolds to, by file."""
    calls = dict([*c_calls(house), *programs(house), *native_calls(house)])
    if name not in calls:
        raise SystemExit(f"trusted.py: no call {name}; there are " + ", ".join(calls))
    yield f"{name}: {len(calls[name])} definitions of {lines(calls[name])} lines\n"
    yield from listing(calls[name], lambda each: "")


def main():
    house = House()
    if sys.argv[1:2] == ["--call"] and len(sys.argv) == 3:
        print("\n".join(one_call(house, sys.argv[2])))
        return
    text = "\n".join(files(house) if sys.argv[1:] == ["--files"] else page(house)) + "\n"
    if COMPLAINTS:
        sys.exit("\n".join(COMPLAINTS))
    if sys.argv[1:] == ["--check"]:
        if not PAGE.exists() or PAGE.read_text() != text:
            sys.exit("docs/TRUSTED.md is not what the contracts give: docs/trusted.py > docs/TRUSTED.md")
    elif sys.argv[1:] in ([], ["--files"]):
        sys.stdout.write(text)
    else:
        sys.exit(__doc__)


main()
