"""What a reader of a contract may have to believe: the definitions of the modules of `specs`."""

from __future__ import annotations

import re

from house.antt import MODIFIERS, in_sections, read_uses
from house.files import read


class Item:
    """A definition of `specs`, or a type or constant of the source: its name, the comment before
    it, and its lines."""

    def __init__(self, name: str, comment: list[str], lines: list[str]) -> None:
        self.name, self.comment, self.lines = name, comment, lines

    def count(self) -> int:
        """Returns how many of its lines are neither blank nor comments."""
        bare = (it.strip() for it in self.lines)
        return sum(1 for it in bare if it and not it.startswith(("--", "//")))


class Definition(Item):
    """A definition of a module: the first of `parts` is its type, the others are its equations."""

    def __init__(self, module: Module, name: str, parameters: str, comment: list[str]) -> None:
        super().__init__(name, comment, [])
        self.module, self.parameters = module, parameters
        self.parts: list[str] = []
        self.is_data, self.is_record = False, False

    def constructors(self) -> list[str]:
        """Returns the names of what makes its values, if it is a type with such."""
        if not self.is_data:
            return []
        lines = [it for it in self.lines[1:] if not it.strip().startswith("--")]
        heads = [it.split(" : ")[0] for it in lines if " : " in it]
        return [name for head in heads for name in head.split()]


class Module:
    """A file of `specs`: what each name means in it, the modules that it uses, its definitions,
    and of each constructor the type."""

    def __init__(self, crate: str, name: str, path: str) -> None:
        self.crate, self.name, self.path = crate, name, path
        self.scope: dict[str, str] = {}
        self.items: dict[str, Definition] = {}
        text = read(path)
        self.uses = read_uses(text, r"(?:pub\s+)?use", self.scope)
        self._read_items(text)
        self.constructors = {it: item for item in self.items.values() for it in item.constructors()}

    def find(self, name: str) -> Definition | None:
        """Returns the definition of this name, or the type that it makes values of."""
        return self.items.get(name) or self.constructors.get(name)

    def _read_items(self, text: str) -> None:
        comment: list[str] = []
        item: Definition | None = None
        for parameters, line in in_sections(text.split("\n")):
            if line.startswith("--"):
                comment.append(line)
            elif not line.strip():
                comment = []
            elif line[0].isspace():
                if item:
                    item.lines.append(line)
                    item.parts[-1] += "\n" + line
            elif re.match(r"(pub\s+)?use\s|infix|pub mod |mod |[})]", line):
                comment = []
                if line[0] in "})" and item:
                    item.lines.append(line)
            else:
                item = self._read_head(line, item, parameters, comment)
                comment = []

    def _read_head(
        self, line: str, last: Definition | None, parameters: str, comment: list[str]
    ) -> Definition | None:
        """Reads a line that stands at the left, after this comment: the first of a definition, or
        an equation of the last one. Returns the definition."""
        words = line.split()
        name = next((it for it in words if it not in MODIFIERS), "")
        is_typed = re.match(r"\S+\s*:\s", line) and (not last or name != last.name)
        item = last
        if words[0] in MODIFIERS or is_typed:
            item = Definition(self, name, parameters, comment)
            before = words[: words.index(name)]
            item.is_data, item.is_record = "data" in before, "record" in before
            self.items[name] = item
        elif item:
            item.lines += comment
        if item:
            item.lines.append(line)
            item.parts.append(line)
        return item
