"""The sources of the crates, read as text: their functions with their contracts, their types,
traits and constants."""

from __future__ import annotations

import re
from collections.abc import Iterator
from dataclasses import dataclass

from house.antt import read_uses
from house.definitions import Item
from house.files import module_name, read

WORD = r"[A-Za-z_][A-Za-z0-9_]*"
_NO_CODE = re.compile(
    r"//[^\n]*|/\*.*?\*/|b?\"(?:\\.|[^\"\\])*\"|b?'(?:\\[^\n']*'|[^'\\\n]')", re.DOTALL
)
_CLAUSE = re.compile(rf"\b(requires|ensures)\b\s*({WORD})?\s*\{{")
_PUBLIC = r"(?:pub(?:\([^)]*\))? )?"
_HOLDER = re.compile(rf"(?m)^{_PUBLIC}(impl|trait)\b([^{{;]*)\{{")
_ITEM = re.compile(rf"(?m)^{_PUBLIC}(struct|enum|const|static|trait)\s+({WORD})")
_FUNCTION = re.compile(rf"\bfn\s+({WORD})")
_BEFORE_FUNCTION = re.compile(r"\s*(pub(\([^)]*\))?\s+)?(const\s+|unsafe\s+|extern\s+\S*\s+)*")


def _blank(text: str) -> str:
    return re.sub(r"[^\n]", " ", text)


def blanked(text: str) -> str:
    """Returns the text with comments, strings and characters blanked out, at the same places."""
    return _NO_CODE.sub(lambda it: _blank(it[0]), text)


def uncommented(text: str) -> str:
    """Returns the text with comments blanked out, at the same places."""
    return _NO_CODE.sub(lambda it: _blank(it[0]) if it[0].startswith("/") else it[0], text)


def without_layout(text: str) -> str:
    """Returns the text without comments, with one blank for all that parts two words; strings stay
    as they are."""
    text, parts, at = uncommented(text), [], 0
    for it in _NO_CODE.finditer(text):
        parts += [re.sub(r"\s+", " ", text[at : it.start()]), it[0]]
        at = it.end()
    return "".join([*parts, re.sub(r"\s+", " ", text[at:])]).strip()


def closing(text: str, at: int) -> int:
    """Returns the place at which the bracket at the place `at` is closed."""
    depth = 0
    for place in range(at, len(text)):
        depth += (text[place] in "([{") - (text[place] in ")]}")
        if depth == 0:
            return place
    return len(text)


class Declared(Item):
    """A type, trait or constant of the source: `what` it is."""

    def __init__(self, source: Source, what: str, name: str, begin: int, end: int) -> None:
        comment = [f"/// {line}" for line in source.doc_before(begin)]
        super().__init__(name, comment, source.text[begin:end].split("\n"))
        self.source, self.what = source, what


@dataclass(eq=False)
class Holder:
    """An `impl` block or a trait, from one place to another: the name of its type, that of its
    trait if it has one, and what its `ghost use` items bring. `is_inner` says of a trait that the
    crate keeps it to itself."""

    begin: int
    end: int
    name: str
    trait: str
    is_trait: bool
    is_inner: bool
    scope: dict[str, str]
    text: str

    def ghosts(self, sign: str) -> list[tuple[str, str]]:
        """Returns the ghost members, each with its text: those that stand before one of the signs
        `:` and `=`."""
        return re.findall(rf"(?s)\bghost\s+(\w+)\s*[{sign}]\s*\{{(.*?)\}};", self.text)


class Function:
    """A function of a source: its comment, its signature, its clauses (the kind, the name and the
    text of each), and its text up to its body."""

    def __init__(self, source: Source, holder: Holder | None, name: str, at: int) -> None:
        self.source, self.holder, self.name = source, holder, name
        self.is_public = False
        self.clauses: list[tuple[str, str, str]] = []
        self.doc = source.doc_before(at)
        # The places of its `fn`, and of its body or the `;` in its place.
        self.begin, (self.end, head) = at, self._read_clauses(at)
        self.signature = re.sub(r"\s+", " ", source.text[at:head]).strip()
        self.text = source.text[at : self.end].rstrip()

    def _read_clauses(self, at: int) -> tuple[int, int]:
        """Reads the clauses, and returns the places at which these and the signature end."""
        plain, head = self.source.plain, None
        while at < len(plain):
            word = _CLAUSE.match(plain, at)
            if word:
                head = at if head is None else head
                end = closing(plain, word.end() - 1)
                text = self.source.text[word.end() : end].strip()
                self.clauses.append((word[1], word[2] or "", text))
                at = end + 1
            elif plain[at] in "([":
                at = closing(plain, at) + 1
            elif plain[at] in "{;":
                break
            else:
                at += 1
        return at, at if head is None else head

    def path(self, modules: list[str]) -> list[str]:
        """Returns the words by which a caller names it, below these modules of its crate."""
        holder = [self.holder.name] if self.holder else []
        return [self.source.crate, *modules, *holder, self.name]

    def is_of_trait(self) -> bool:
        """Returns whether it is a type's function of a trait: the trait has its contract."""
        holder = self.holder
        return bool(holder and holder.trait and not holder.is_trait)

    def full_scope(self) -> dict[str, str]:
        """Returns what each name means in its clauses."""
        return {**self.source.scope, **(self.holder.scope if self.holder else {})}


class Source:
    """A file of `src`: its functions, types, traits and constants."""

    def __init__(self, crate: str, path: str, folder: str) -> None:
        self.crate, self.path = crate, path
        self.text = read(path)
        self.plain = blanked(self.text)
        self.module = re.sub(r"(^|\.)(mod|lib|main)$", "", module_name(path, folder))
        self.scope: dict[str, str] = {}
        self.holders = [self._holder(it) for it in _HOLDER.finditer(self.plain)]
        read_uses(self._outside_holders(), "(?:pub )?ghost use", self.scope)
        # The crate that each name of a `use` item comes from.
        self.rust = self._rust_names()
        self.functions = list(self._read_functions())
        self.items = {it[2]: self._item(it) for it in _ITEM.finditer(self.plain)}

    def doc_before(self, at: int) -> list[str]:
        """Returns the lines of the comment before the line that has the place `at`."""
        lines = self.text[:at].split("\n")[:-1]
        doc: list[str] = []
        while lines and lines[-1].strip().startswith(("///", "#[", "//")):
            line = lines.pop().strip()
            if line.startswith("///"):
                doc.insert(0, line[3:].strip())
        return doc

    def _holder(self, found: re.Match[str]) -> Holder:
        end = closing(self.plain, found.end() - 1)
        is_trait, head = found[1] == "trait", found[2].strip()
        trait, kind = "", head
        if not is_trait:
            head = re.sub(r"^<(?:[^<>]|<[^<>]*>)*>\s*", "", head)
            trait, _, kind = head.rpartition(" for ")
        name, of_trait = re.match(WORD, kind.strip()), re.match(WORD, trait.strip())
        own = name[0] if name else ""
        scope: dict[str, str] = {}
        read_uses(self.text[found.end() : end], "ghost use", scope)
        return Holder(
            begin=found.start(),
            end=end,
            name=own,
            trait=of_trait[0] if of_trait else own if is_trait else "",
            is_trait=is_trait,
            is_inner=is_trait and not found[0].startswith("pub trait"),
            scope=scope,
            text=self.text[found.start() : end + 1],
        )

    def _outside_holders(self) -> str:
        text, at = "", 0
        for it in self.holders:
            text += self.text[at : it.begin] + "\n"
            at = it.end + 1
        return text + self.text[at:]

    def _rust_names(self) -> dict[str, str]:
        found: dict[str, str] = {}
        for path in re.findall(r"(?m)^\s*(?:pub )?use ([^;]+);", self.plain):
            head = path.split("::")[0].strip()
            crate = self.crate if head in ("crate", "super", "self") else head
            for name in re.findall(WORD, path):
                found.setdefault(name, crate)
        return found

    def _read_functions(self) -> Iterator[Function]:
        for it in _FUNCTION.finditer(self.plain):
            before = self.plain[self.plain.rfind("\n", 0, it.start()) + 1 : it.start()]
            if not _BEFORE_FUNCTION.fullmatch(before):
                continue
            holder = next((h for h in self.holders if h.begin < it.start() < h.end), None)
            function = Function(self, holder, it[1], it.start())
            is_handed_on = bool(holder and holder.trait and not holder.is_inner)
            function.is_public = before.split()[:1] == ["pub"] or is_handed_on
            yield function

    def _item(self, found: re.Match[str]) -> Declared:
        at = found.end()
        while at < len(self.plain) and self.plain[at] not in "{;":
            at = closing(self.plain, at) + 1 if self.plain[at] in "([" else at + 1
        end = closing(self.plain, at) if self.plain[at : at + 1] == "{" else at
        return Declared(self, found[1], found[2], found.start(), end + 1)
