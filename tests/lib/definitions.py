"""Reads specs/*.antt and the clauses in src/*.rt, and finds the definitions that each definition
and each clause cites.

The reader understands declarations, imports and binders, and proves nothing. `Definition.unknown`
has the words that are neither bound nor imported nor built in. Callers can report these words."""

import re
from functools import cached_property

from spec_files import (
    CRATES,
    Definition,
    ROOT,
    Scope,
    SpecsFile,
    Walk,
    imports_in,
    tokens_of,
    without_comments,
)


class CodeFile:
    """A file of a src/ folder, with its types, its traits, and the clauses of its functions."""

    def __init__(self, book, path):
        self.book, self.path = book, path
        relative = path.relative_to(CRATES)
        self.crate = relative.parts[0]
        self.place = ".".join([*relative.parts[2:-1], path.stem])
        self.raw = path.read_text(encoding="utf-8")
        self.text = without_comments(self.raw, "//")
        self.types = {}
        for found in re.finditer(
            r"^(?: *)(?:pub(?:\([a-z]+\))? )?(struct|enum|trait|type) (\w+)([^\n]*)",
            self.text,
            re.MULTILINE,
        ):
            self.types[found[2]] = self.type_at(found)

    def type_at(self, found):
        kind, name = found[1], found[2]
        end = self.block_end(found.start())
        text = self.text[found.start() : end]
        it = Definition(
            f"{self.crate}.specs.declared.{self.place}.{name}",
            name,
            "type",
            self.path,
            self.line_of(found.start()),
            text,
        )
        it.rust_kind = kind
        if kind == "trait":
            # Each ghost of a trait has a separate definition.
            it.text = text.splitlines()[0]
        return it

    def line_of(self, at):
        return self.text.count("\n", 0, at) + 1

    def block_end(self, start):
        """Returns the end of the item that begins at `start`: the place after its block or its
        semicolon."""
        depth = 0
        for at in range(start, len(self.text)):
            sign = self.text[at]
            if sign in "{([":
                depth += 1
            elif sign in "})]":
                depth -= 1
                if depth == 0 and sign == "}":
                    return at + 1
            elif sign == ";" and depth == 0:
                return at + 1
        return len(self.text)

    def block_around(self, at):
        """Returns the `impl` or `trait` around a place, as (head, text). Returns two empty texts if
        the place is at the top level of the file."""
        best = ("", "")
        for found in re.finditer(
            r"^(?:pub(?:\([a-z]+\))? )?(?:impl|trait)\b[^{]*\{", self.text, re.MULTILINE
        ):
            end = self.block_end(found.start())
            if found.start() < at < end:
                best = (found[0], self.text[found.start() : end])
        return best

    def scope_at(self, at):
        """Returns the names that clauses may use at a place. These are the imports of the file and
        of the block around the place, and the ghosts of the trait around the place. Also returns
        the file's Rust names of types and constants."""
        head, block = self.block_around(at)
        scope = Scope(self.book, imports_in(self.text, "ghost use"))
        # The imports of the block replace imports of the file with the same name.
        inner = Scope(self.book, imports_in(block, "ghost use"))
        scope.names.update(inner.names)
        scope.aliases.update(inner.aliases)
        for name in self.rust_names():
            if name not in scope.names:
                scope.names[name] = ("rust", f"{self.crate}/{self.place}/{name}")
        trait = re.match(r"(?:pub(?:\([a-z]+\))? )?trait (\w+)", head)
        if trait:
            for ghost in re.findall(r"^    ghost (\w+):", block, re.MULTILINE):
                scope.names[ghost] = ("ghost", f"{self.crate}/{self.place}/{trait[1]}/{ghost}")
        return scope

    @cached_property
    def uses(self):
        """Returns a dict of the names that `use` imports. The key is the name in this file, and the
        value is (crate, name in the crate)."""
        found = {}
        for line in re.finditer(
            r"^(?:pub(?:\([a-z]+\))? )?use ((?:[^;])*);", self.text, re.MULTILINE
        ):
            for crate, name, here in flat(line[1]):
                found[here] = (self.crate if crate in ("crate", "self", "super") else crate, name)
        return found

    def rust_names(self):
        constants = re.findall(r"^(?:pub(?:\([a-z]+\))? )?const (\w+)", self.text, re.MULTILINE)
        return {**dict.fromkeys(self.types), **dict.fromkeys(self.uses), **dict.fromkeys(constants)}

    def rust_type(self, name):
        """Returns the definition of the type or constant with this Rust name in this file."""
        if name in self.types:
            return self.types[name]
        if name in self.uses:
            crate, there = self.uses[name]
            return (
                self.book.type_named(crate, there)
                if crate in self.book.crates
                else self.book.look(crate, there)
            )
        return self.book.constant(self, name)

    def clauses(self, name, owner=None):
        """Returns the place of a function's `fn` line, and the function's clauses as (`requires` or
        `ensures`, label, text, place)."""
        for found in re.finditer(
            rf"^ *(?:pub(?:\([a-z]+\))? )?(?:final )?(?:extern \"C\" )?fn {name}\b",
            self.text,
            re.MULTILINE,
        ):
            head = self.block_around(found.start())[0]
            if owner and not re.search(rf"\b{owner}\b", head.split(" for ")[-1]):
                continue
            if not owner and head:
                continue
            at = found.end()
            body = re.compile(r"(requires|ensures)( [a-z_0-9]+)? \{").search
            clauses = []
            stop = self.text.find("\n    {\n", at) if head else self.text.find("\n{\n", at)
            while it := body(self.text, at, stop if stop > 0 else len(self.text)):
                depth, end = 1, it.end()
                while depth:
                    depth += (self.text[end] == "{") - (self.text[end] == "}")
                    end += 1
                clauses.append(
                    (it[1], (it[2] or "").strip(), self.text[it.end() : end - 1], it.start())
                )
                at = end
            return found.start(), clauses
        raise KeyError(f"{self.path}: no function {name}")

    def generics_at(self, at):
        """Returns the trait bounds of each type parameter of the function at a place, and of the
        `impl` around the function."""
        head = self.block_around(at)[0]
        paren = self.text.find("(", at)
        bounds = {}
        for text in (head, self.text[at:paren]):
            for parameter, traits in re.findall(r"\b([A-Z])\s*:\s*([\w +]+)", text):
                bounds[parameter] = [it.strip() for it in traits.split("+")]
            for parameter in re.findall(r"\b[A-Z]\b", text):
                bounds.setdefault(parameter, [])
        return bounds

    def cited_by(self, at, text):
        """Returns the definitions that a clause cites, and the words that the reader doesn't
        know."""
        scope = self.scope_at(at)
        bounds = self.generics_at(at)
        walk = Walk(scope)
        for token in tokens_of(text):
            head, _, rest = token.partition(".")
            if head in bounds and rest:
                for trait in bounds[head]:
                    it = self.rust_type(trait)
                    ghost = it and self.book.ghost(it, rest.split(".")[0])
                    if ghost:
                        walk.cited.append(ghost)
        walk.scopes[0].update(bounds)
        signature = self.text[self.text.find("(", at) :]
        walk.scopes[0].update(
            re.findall(r"\b(?:mut )?([a-z_]+):", signature[: signature.find("ensures")])
        )
        # `⟦<TYPE as TRAIT>⟧.GHOST`. A trait of the standard library has no definition here.
        for trait, name in re.findall(r"⟦<[^⟧]* as (\w+)>⟧\.(\w+)", text):
            ghost = self.book.ghost(self.rust_type(trait), name)
            if ghost:
                walk.cited.append(ghost)
        walk.expression(tokens_of(re.sub(r"⟦[^⟧]*⟧(\.\w+)?", "", text)))
        return walk.cited, walk.unknown


def flat(text, before=()):
    """Yields (crate, name, name in this file) for each name that a `use` imports."""
    text = text.strip()
    brace = text.find("{")
    if brace < 0:
        path, _, here = text.partition(" as ")
        parts = [*before, *path.strip().split("::")]
        if parts[-1] != "*":
            yield parts[0], parts[-1], here.strip() or parts[-1]
        return
    head = [*before, *filter(None, text[:brace].split("::"))]
    inner, depth, start = text[brace + 1 : text.rfind("}")], 0, 0
    for at, sign in enumerate(inner + ","):
        depth += (sign == "{") - (sign == "}")
        if sign == "," and depth == 0:
            if inner[start:at].strip():
                yield from flat(inner[start:at], head)
            start = at + 1


class Book:
    """All definitions in the repository."""

    def __init__(self):
        self.specs, self.code, self.libraries, self.ghosts = {}, {}, {}, {}
        self.crates = re.findall(
            r"^(\w+)[ :]", (ROOT / "crates.txt").read_text(encoding="utf-8"), re.MULTILINE
        )
        for crate in self.crates:
            for path in sorted((CRATES / crate / "specs").rglob("*.antt")):
                it = SpecsFile(self, path)
                self.specs[it.module] = it
            for path in sorted((CRATES / crate / "src").rglob("*.rt")):
                it = CodeFile(self, path)
                self.code[f"{crate}/{it.place}"] = it
        for file in self.specs.values():
            for it in file.definitions.values():
                if it.kind != "constructor":
                    file.resolve(it)
        for file in self.code.values():
            for it in file.types.values():
                self.resolve_type(file, it)

    def look(self, module, name):
        """Returns the definition of a name in a module."""
        if module == "rust":
            crate, place, here = name.split("/")
            return self.code[f"{crate}/{place}"].rust_type(here)
        if module == "ghost":
            crate, place, trait, ghost = name.split("/")
            return self.ghost(self.code[f"{crate}/{place}"].types[trait], ghost)
        crate = module.split(".")[0]
        if crate not in self.crates:
            return self.libraries.setdefault((module, name), Definition(module, name, "library"))
        if ".specs.declared." in module:
            return self.declared(module, name)
        file = self.specs.get(module)
        if file is None:
            return None
        if name in file.definitions:
            return file.definitions[name]
        for other in file.reexports:
            if found := self.look(other, name):
                return found
        return None

    def declared(self, module, name):
        """Returns the item of the code (a type, a variant or a constant) that a name in a generated
        module refers to."""
        crate, _, place = module.partition(".specs.declared.")
        parts = place.split(".")
        start = next((at for at, part in enumerate(parts) if part[0].isupper()), len(parts))
        file = self.code.get(f"{crate}/{'.'.join(parts[:start])}")
        if file is None or start == len(parts) or parts[start] not in file.types:
            return self.constant(file, name) if file else None
        it = file.types[parts[start]]
        return self.variant(it, name) if "TheVariants" in parts else it

    def constant(self, file, name):
        found = re.search(
            rf"^(?:pub(?:\([a-z]+\))? )?(?:const|static) {name}\b[^;]*;", file.text, re.MULTILINE
        )
        if not found:
            return None
        module = f"{file.crate}.specs.declared.{file.place}"
        return self.ghosts.setdefault(
            (module, name),
            Definition(module, name, "type", file.path, file.line_of(found.start()), found[0]),
        )

    def variant(self, it, name):
        return Definition(it.module, name, "constructor", it.path, it.line, owner=it)

    def type_named(self, crate, name):
        for key, file in self.code.items():
            if key.startswith(f"{crate}/") and name in file.types:
                return file.types[name]
        return None

    def ghost(self, trait, name):
        """Returns a trait's ghost, with the definitions that its type cites."""
        key = (trait.module, name)
        if trait.path is None:
            return None
        if key in self.ghosts:
            return self.ghosts[key]
        file = next(it for it in self.code.values() if it.path == trait.path)
        start = re.search(rf"^pub trait {trait.name}\b", file.text, re.MULTILINE)
        if not start:
            return None
        found = re.compile(rf"^    ghost {name}: \{{", re.MULTILINE).search(
            file.text, start.start(), file.block_end(start.start())
        )
        if not found:
            return None
        end = file.block_end(found.start())
        it = Definition(
            trait.module,
            f"{trait.name}.{name}",
            "ghost",
            file.path,
            file.line_of(found.start()),
            file.text[found.start() : end],
        )
        self.ghosts[key] = it
        walk = Walk(file.scope_at(found.end()))
        walk.expression(tokens_of(file.text[found.end() : end - 1]))
        it.cited, it.unknown = walk.cited, walk.unknown
        return it

    def standing_for(self, ghost):
        """Yields (type, file, value, definitions) for each of our own types that gives the ghost a
        value. The value depends on these definitions."""
        trait, name = ghost.name.split(".")
        for key, file in self.code.items():
            if key.split("/")[0].endswith("_tests") or key.split("/")[0] in (
                "test_kit",
                "club_bench",
            ):
                continue
            for found in re.finditer(
                rf"^impl\b[^{{]*\b{trait}(?:<[^{{]*>)? for (\w+)[^{{]*\{{", file.text, re.MULTILINE
            ):
                block = file.text[found.start() : file.block_end(found.start())]
                value = re.search(rf"\bghost {name} = \{{\s*(.*?)\s*\}};", block, re.DOTALL)
                if value:
                    yield found[1], file, value[1], closure(
                        file.cited_by(found.start() + value.start(), value[1])[0]
                    )

    def resolve_type(self, file, it):
        """Finds the definitions that a type cites. If `Model` gives the type a value in contracts,
        these are the definitions in this value. Otherwise, these are the types of the fields."""
        if it.rust_kind == "trait":
            return
        model = re.search(
            rf"^impl(?:<[^>]*>)? Model for {it.name}\b[^{{]*\{{", file.text, re.MULTILINE
        )
        if model:
            block = file.text[model.start() : file.block_end(model.start())]
            scope = file.scope_at(model.end())
            for found in re.finditer(r"ghost (Value|view|invariant) = \{", block):
                depth, end = 1, found.end()
                while depth:
                    depth += (block[end] == "{") - (block[end] == "}")
                    end += 1
                walk = Walk(scope)
                walk.expression(tokens_of(block[found.end() : end - 1]))
                it.cited += walk.cited
                it.unknown += walk.unknown
            if re.search(r"ghost Value = \{ [^}]*\}", block):
                return
        for word in re.findall(r"\b[A-Z]\w*", it.text):
            found = file.rust_type(word)
            if found and found is not it:
                it.cited.append(found)


def owner_of(it):
    return it.owner or it


def closure(cited):
    """Returns these definitions and all definitions that they depend on, each once."""
    found, open_ = {}, list(cited)
    while open_:
        it = owner_of(open_.pop())
        if id(it) not in found:
            found[id(it)] = it
            open_ += it.cited
    return list(found.values())
