"""Prints which definitions the contract of a public call rests on, so that a reader knows what to
believe.

Usage:
  tools/believe CALL ..          counts, and the modules with their definitions, for calls such as
                                 score_whole, gabc_text::text_whole, gabc_places::Room::push or
                                 gabc_score::stage_laws::a_fresh_stage_emits
  tools/believe --list CALL ..   the contracts and the definitions themselves, in reading order
  tools/believe --table          a table in markdown for the main calls
  tools/believe --write-table    puts this table into docs/PROMISES.md, between its two marker lines
  tools/believe --check-table    fails where the table there is another
  tools/believe --write-contracts FOLDER
                                 prints a page for each crate into the folder: each public call with
                                 its comment and its contract
  tools/believe --check-promises fails where docs/PROMISES.md heads a line with a name of nothing,
                                 or a public call has no comment
  tools/believe --check-machine  fails where a crate cites the module `specs.machine` of another
                                 crate, or a public clause that of its own
  tools/believe --check-dead     fails where nothing cites a name of specs/ or proofs/, and it is no
                                 answer to a goal and no written-out example
  tools/believe --check-memory   fails where a public call that takes an allocator, or may answer
                                 that there is no memory, is not tried by `tools/try_memory`, or by
                                 c/tests/memory.c if it is exported to C; or a call is tried that is
                                 none of these

What counts: from the clauses of the call, each definition of a crate's specs/ that can be reached
through definitions; each type of the source that they or the call's signature name, with its
fields, and the value and view of its `impl Model`; and each trait that the signature names, with
its clauses. Lines are those of definitions, without comments and blank lines. Words of the kit's
own libraries are named by --list, and not counted.

What does not count: the invariant of a type, which each of its values has by proof; and a
definition in specs/witness/, at which the way ends. It is named as any function with these laws:
what it says of a fresh stage stands in a contract, and each call hands it on.

It reads the files as text. A name that a clause binds is taken for a variable in all of that
clause."""

from __future__ import annotations

import os
import signal
import sys

from house import checks
from house.belief import Fault, belief_of
from house.calls import write_pages
from house.citations import Citations
from house.files import ROOT, plural, read, told, write
from house.listing import print_counts, print_list, print_modules, table_of
from house.repository import Repository

BEGIN, END = "<!-- believe: begin -->", "<!-- believe: end -->"
FLAGS = (
    *("--list", "--table", "--write-table", "--check-table", "--write-contracts"),
    *("--check-promises", "--check-machine", "--check-dead", "--check-memory"),
)


def with_table(text: str, table: str) -> str:
    """Returns the text of the page with this table. Raises `Fault` if it has no place for it."""
    if text.count(BEGIN) != 1 or text.count(END) != 1 or text.index(BEGIN) > text.index(END):
        raise Fault(f"docs/PROMISES.md has not one line {BEGIN} before one line {END}")
    front, rest = text.split(BEGIN)
    return f"{front}{BEGIN}\n\n{table}\n\n{END}{rest.split(END)[1]}"


def put_table(repository: Repository, flag: str) -> None:
    """Prints, writes or compares the table of the main calls, as the flag says. Raises `Fault` if
    that of the page is another."""
    table = table_of(repository)
    if flag == "--table":
        print(table)
        return
    path = os.path.join(repository.root, checks.PROMISES)
    text = read(path)
    wanted = with_table(text, table)
    if flag == "--write-table":
        write(path, wanted)
    elif text != wanted:
        raise Fault("the table in docs/PROMISES.md is another: run tools/believe --write-table")


def check_machine(root: str) -> int:
    """Prints who cites a machine that is not for it, and returns the exit status."""
    found = list(checks.machine(Repository(root)))
    status = told(found)
    nothing = "no crate cites another's machine, and no public clause its own"
    print(f"believe: {plural(len(found), 'line') + ' cite a machine' if found else nothing}")
    return status


def check_dead(root: str) -> int:
    """Prints the names that nothing cites, and returns the exit status."""
    found = list(Citations(root).lines())
    status = told(found)
    nothing = "each name of specs/ and proofs/ is cited"
    print(f"believe: {'nothing cites ' + plural(len(found), 'name') if found else nothing}")
    return status


def print_calls(repository: Repository, calls: list[str], is_listed: bool) -> None:
    """Prints what each call rests on. Raises `Fault` if one is not there."""
    for call in calls:
        name, function, belief = belief_of(repository, call)
        if is_listed:
            print_list(name, function, belief)
        else:
            print_counts(name, belief)
            print_modules(belief)


def is_usage(flags: list[str], names: list[str]) -> bool:
    """Returns whether these flags and other words are a way to call this tool."""
    if flags in ([], ["--list"]):
        return bool(names)
    is_known = len(flags) == 1 and flags[0] in FLAGS
    return is_known and len(names) == (1 if flags == ["--write-contracts"] else 0)


def run(flag: str, names: list[str], root: str) -> int:
    """Does what the flag says, and returns the exit status. Raises `Fault`."""
    if flag == "--check-machine":
        return check_machine(root)
    if flag == "--check-dead":
        return check_dead(root)
    repository = Repository(root)
    if flag == "--check-promises":
        return told(checks.promises(repository))
    if flag == "--check-memory":
        return told(checks.memory(repository), "believe: ")
    if flag == "--write-contracts":
        write_pages(repository, names[0])
    elif flag.endswith("-table") or flag == "--table":
        put_table(repository, flag)
    else:
        print_calls(repository, names, flag == "--list")
    return 0


def main(words: list[str], root: str = ROOT) -> int:
    """Does what these arguments say for the repository at `root`, and returns the exit status."""
    flags = [it for it in words if it.startswith("--")]
    names = [it for it in words if not it.startswith("--")]
    if not is_usage(flags, names):
        print(__doc__, file=sys.stderr)
        return 2
    try:
        return run("".join(flags), names, root)
    except Fault as fault:
        print(f"believe: {fault}", file=sys.stderr)
        return 1


if __name__ == "__main__":
    signal.signal(signal.SIGPIPE, signal.SIG_DFL)
    sys.exit(main(sys.argv[1:]))
