"""How often each neume stands in many scores."""
from __future__ import annotations

from collections import Counter

from gregorio_chant.tables.searching import COUNT, counted_neumes
from gregorio_chant.tables.tables import Made, Options, Row, for_each, form_of, put_for


class Totals:
    """Adds up the rows of files, and keeps of each kind the first one."""

    def __init__(self) -> None:
        self._count = Counter[str]()
        self._first: dict[str, tuple[str, Row]] = {}

    def add(self, made: Made) -> str:
        """Takes the rows of a file. Nothing is written of one file."""
        for row in made.rows:
            kind = str(row.cells[0])
            self._count[kind] += row.count
            self._first.setdefault(kind, (made.name, row))
        return ""

    def made(self) -> list[Made]:
        """Returns a row for each kind, the most frequent first."""
        found = []
        for kind, count in self._count.most_common():
            name, row = self._first[kind]
            found.append(Made(name, (Row(row.line, row.column, (kind, count, *row.cells[2:])),)))
        return found


def write_totals(options: Options) -> int:
    """Writes how often each kind of neume stands in all files, and returns the worst status. Raises
    as `for_each` does."""
    totals = Totals()
    status = for_each(options, counted_neumes, totals.add)
    form = form_of(options, COUNT)
    put_for(options)("".join([form.begin(), *map(form.add, totals.made()), form.end()]))
    return status
