"""Which proofs `grind` may find from the lemmas that they name: what `tools/shorten_proofs` tries,
and how it stands in a copy of the declaration beside it."""

from __future__ import annotations

import os
import re
from collections.abc import Iterator
from dataclasses import dataclass

from house.antt import depth_of, words_of
from house.citations import Citations
from house.files import crates_folder, read
from house.proof_files import Declaration, File

LONGEST = 40
CONSTRUCTORS = {"zero", "suc", "inl", "inr", "true", "false", "refl", "tt", "yes", "no"}
_EQUALS = re.compile(r" =(?: |$)")
_NO_PROOF = re.compile(r"\s*(abbrev|unfoldable|pub record|record|data)\b")
_NO_LEMMA = re.compile(
    r"\s*(?:pub )?(?:abbrev|unfoldable|record|data)\b|\s*(?:abbrev|unfoldable) pub"
)
_OF_STD = re.compile(r"\w+-[\w-]+|and_parts|or_parts|append_assoc|take_(?:more|at|all)")
_COMMON = "use Rattle.std.proofs.Common.{"


def atoms(text: str) -> list[str]:
    """Returns the words and bracketed groups of an application."""
    found: list[str] = []
    word, depth = "", 0
    for it in f"{text} ":
        depth += (it in "([{") - (it in ")]}")
        if it == " " and not depth:
            found += [word] if word else []
            word = ""
        else:
            word += it
    return found


def calls(name: str, text: str) -> list[str]:
    """Returns the calls of `name` in a proof, each with its arguments."""
    found = []
    for it in re.finditer(rf"(?<![^\s(\[{{]){re.escape(name)} ", text):
        depth, end = 0, it.end()
        while end < len(text) and (depth or text[end] not in ")]},;"):
            depth += (text[end] in "([{") - (text[end] in ")]}")
            end += 1
        arguments = [name]
        for argument in atoms(text[it.end() : end]):
            if not re.match(r"[\w(\[]", argument) or argument in ("in", "where"):
                break
            arguments.append(argument)
        found.append(" ".join(arguments))
    return list(dict.fromkeys(it for it in found if "λ" not in it))


def cut_equation(line: str) -> list[str]:
    """Returns the two sides of an equation's first line."""
    return _EQUALS.split(line, maxsplit=1)


@dataclass(eq=False)
class Trial:
    """A shorter proof of a declaration: its lines from `begin` to `end` in the file, and what
    stands in their place."""

    declaration: Declaration
    begin: int
    end: int
    line: str
    head: list[str]
    tail: list[str]

    def saved(self) -> int:
        """Returns how many lines it saves."""
        return self.end - self.begin - 1

    def copy(self, signature: list[str], name: str) -> list[str]:
        """Returns the declaration with the shorter proof, under another name; the calls of itself
        are those of the longer one."""
        own = re.compile(rf"^(\s*)(?:pub )?{re.escape(self.declaration.name)}(?= )")
        depth = depth_of(self.line)
        lines = [*signature, *self.head, self.line, *self.tail]
        renamed = (own.sub(rf"\g<1>{name}", it) if depth_of(it) == depth else it for it in lines)
        return ["", *renamed]


class Proof:
    """A declaration of a file of proofs, cut into its signature and its clauses."""

    def __init__(self, it: Declaration, lines: list[str]) -> None:
        self.it = it
        own = lines[it.begin : it.end]
        depth, head = depth_of(own[0]), f"{it.name} "
        heads = (at for at, line in enumerate(own) if at and line.strip().startswith(head))
        begins = [at for at in heads if depth_of(own[at]) == depth]
        self.is_read = bool(begins) and not _NO_PROOF.match(own[0])
        self.signature = own[: begins[0]] if begins else own
        self.clauses = [own[at:end] for at, end in zip(begins, [*begins[1:], len(own)])]
        self.starts = [it.begin + at for at in begins]

    def heads(self) -> list[list[str]]:
        """Returns the arguments of each clause."""
        return [atoms(cut_equation(clause[0])[0])[1:] for clause in self.clauses]

    def bodies(self) -> list[str]:
        """Returns the right side of each clause, on one line."""
        return [" ".join([cut_equation(it[0])[1], *it[1:]]) for it in self.clauses]

    def variables(self) -> str | None:
        """Returns a name for each explicit argument: that of a clause, or of the signature, or `h`,
        `k` and so on; nothing if the clauses have other numbers of them."""
        heads = [[it for it in head if it[0] != "{"] for head in self.heads()]
        if len({len(head) for head in heads}) != 1:
            return None
        bound = re.findall(r"[(]([^(){}:]+) : ", " ".join(self.signature))
        spare = iter([*(name for it in bound for name in it.split()), *"hkefgpquvwxyz"])
        found: list[str] = []
        for column in zip(*heads):
            known = CONSTRUCTORS | set(found)
            words = (it for it in column if re.fullmatch(r"[a-z][\w'-]*", it))
            named = next((it for it in words if it not in known), None)
            taken = {*found, *(it for head in heads for it in head)}
            found.append(named or next(it for it in spare if it not in taken))
        return " ".join(found)

    def calls_itself(self) -> bool:
        """Returns whether a clause of it names it."""
        return self.it.name in words_of(" ".join(self.bodies()))


class CrateProofs:
    """The files of proofs of a crate of the repository at `root`, all or those with these paths
    below its `proofs`, and what the lemmas of all crates are."""

    def __init__(self, root: str, name: str, paths: list[str]) -> None:
        self.folder = os.path.join(crates_folder(root), name)
        self.all = Citations(root)
        files = self.all.files.items()
        own = [it for (crate, part, _), it in files if (crate, part) == (name, "proofs")]
        wanted = {os.path.join(self.folder, "proofs", it) for it in paths}
        self.files = [it for it in own if not wanted or it.path in wanted]
        lines = (line for it in own for line in read(it.path).split("\n"))
        unfolding = (re.match(r"\s*unfolding (.*)", line) for line in lines)
        self.unfolded = {name for it in unfolding if it for name in it[1].split()}

    def lemmas(self, file: File, text: str) -> list[str]:
        """Returns the lemmas that a proof names, in its order: those of the crates' proofs, and of
        std those whose names are of two parts."""
        words = (it for it in re.split(r"[\s(){},;.]+", text) if it in words_of(text))
        return [it for it in dict.fromkeys(words) if self._is_lemma(file, it)]

    def _is_lemma(self, file: File, word: str) -> bool:
        if file.scope.get(word, "").startswith("Rattle.std.proofs") and _OF_STD.fullmatch(word):
            return True
        named = next(self.all.cited({word}, file.scope, file), None)
        is_proof = named and named.file.part == "proofs" and not _NO_LEMMA.match(named.lines[0])
        return bool(is_proof and word[0].islower() and word not in self.unfolded)

    def trials(self, file: File, lines: list[str]) -> Iterator[Trial]:
        """Yields what is tried in a file."""
        for it in file.declarations:
            proof = Proof(it, lines)
            if it.name in self.unfolded or not proof.is_read:
                continue
            start, variables = proof.starts[0], proof.variables()
            is_short = 1 < it.end - start <= LONGEST
            if variables is not None and is_short and not proof.calls_itself():
                head = f"{' ' * depth_of(lines[start])}{it.name} {variables}".rstrip()
                found = self._line(file, head, " ".join(proof.bodies()), [])
                yield Trial(it, start, it.end, found, [], [])
            elif len(proof.clauses) > 1:
                yield from self._clauses(file, proof)

    def _clauses(self, file: File, proof: Proof) -> Iterator[Trial]:
        """Yields what is tried of a proof by cases: each clause of more than one line."""
        for at, (clause, body) in enumerate(zip(proof.clauses, proof.bodies())):
            if 1 < len(clause) <= LONGEST:
                before = [line for it in proof.clauses[:at] for line in it]
                after = [line for it in proof.clauses[at + 1 :] for line in it]
                given = calls(proof.it.name, body)
                line = self._line(file, cut_equation(clause[0])[0], body, given)
                start = proof.starts[at]
                yield Trial(proof.it, start, start + len(clause), line, before, after)

    def _line(self, file: File, head: str, body: str, given: list[str]) -> str:
        named = [*given, *(it for it in self.lemmas(file, body) if it != head.split()[0])]
        return f"{head} = grind " + (f"(arith, {', '.join(named)})" if named else "arith")


def with_arith(lines: list[str]) -> list[str]:
    """Returns a file that uses `arith`."""
    used = next((at for at, it in enumerate(lines) if it.startswith(_COMMON)), None)
    if used is None:
        first = next(at for at, it in enumerate(lines) if it.startswith("use "))
        return [*lines[:first], f"{_COMMON}arith}}", *lines[first:]]
    if re.search(r"[{ ]arith[,}]", lines[used]):
        return lines
    return [*lines[:used], lines[used].replace("}", ", arith}"), *lines[used + 1 :]]


def with_copies(lines: list[str], trials: list[Trial]) -> tuple[list[str], list[tuple[int, int]]]:
    """Returns a file with a copy for each trial after its declaration, and the lines of the copies,
    from 1."""
    written: list[str] = []
    spans: dict[int, tuple[int, int]] = {}
    shift = len(with_arith(lines)) - len(lines)
    for at in range(len(lines) + 1):
        for number, it in enumerate(trials):
            if it.declaration.end == at:
                name = f"{it.declaration.name}-tried_{number}"
                copy = it.copy(Proof(it.declaration, lines).signature, name)
                begin = len(written) + shift
                spans[number] = begin + 1, begin + len(copy)
                written += copy
        written += lines[at : at + 1]
    return with_arith(written), [spans[number] for number in range(len(trials))]
