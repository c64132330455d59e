"""The words `check --fix`: repairs files before they are checked."""
from __future__ import annotations

from dataclasses import dataclass

from gregorio_chant.format.formatting import difference
from gregorio_chant.linting.checking import Options, check_score
from gregorio_chant.linting.repairing import How, Repaired, repair
from gregorio_chant.objects.compiled import Compiled, TooLong
from gregorio_chant.report.reports import Checked, counted
from gregorio_chant.work import files
from gregorio_chant.work.scores import Scores
from gregorio_chant.work.streams import tell, write_data


def _fix(name: str, content: files.Content, how: How, shows_diff: bool) -> Repaired:
    """Repairs a file, or shows what would be repaired, tells each guess, and returns what the score
    is then. Raises `OSError` and `files.FileChanged`."""
    made = repair(Compiled(content.data), how)
    if made.data == content.data:
        return made
    if shows_diff:
        write_data(
            difference(
                name, f"{name} (repaired)", content.data.decode("utf-8"), made.data.decode("utf-8")
            )
        )
    else:
        files.replace(name, content, made.data)
    for it in made.guesses:
        tell(f"{name}:{it}")
    return made


@dataclass(frozen=True)
class Fixed:
    """What became of the files: the worst status, and what is reported then of each that could be
    repaired, by its name."""

    status: int
    checked: dict[str, Checked]


def fix_files(options: Options, allow_unsafe: bool, shows_diff: bool) -> Fixed:
    """Repairs what `check` would report of the files. The status is 0, or 1 where a diff shows
    something, or 4 where a file cannot be read or written. Raises `WriteError`, and `SettingsError`
    or `MissingDependency` before any score is read."""
    scores = Scores(options, "repair", "; it stays as it was")
    checked: dict[str, Checked] = {}
    for name, content in scores.contents():
        settings = options.settings.of(name)
        with_rules = options.with_rules or settings.rules is True
        how = How(allow_unsafe, with_rules, settings.selection(name, options.chosen))
        try:
            made = _fix(name, content, how, shows_diff)
            scores.add(0, made.data != content.data)
            if not shows_diff:
                checked[name] = check_score(name, made.score, options, made.found)
        except OSError as error:
            scores.cannot(name, error)
        except (files.FileChanged, TooLong) as error:
            scores.fail(name, str(error))
    if not options.quiet:
        told = "would be repaired" if shows_diff else "repaired"
        tell(f"{counted(scores.done, 'file')} {told}")
    return Fixed(max(scores.status, int(shows_diff and scores.done > 0)), checked)
