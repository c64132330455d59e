"""A score that is open in an editor, with all that is found in it, each asked for once."""
from __future__ import annotations

from collections.abc import Callable
from dataclasses import dataclass
from functools import cached_property

from gregorio_chant._native.results import Message
from gregorio_chant.format.formatting import Style, style_by
from gregorio_chant.linting.finding import messages_with_rules, unsilenced
from gregorio_chant.linting.helps import helps_for
from gregorio_chant.linting.repairing import is_text
from gregorio_chant.linting.selection import Selection
from gregorio_chant.linting.slips import Subject
from gregorio_chant.objects.compiled import Compiled
from gregorio_chant.objects.pauses import Pause, go_on
from gregorio_chant.objects.score import Score
from gregorio_chant.server.text import Text
from gregorio_chant.text.parts import Parts
from gregorio_chant.work.settings import Settings


@dataclass(frozen=True)
class File:
    """What stays the same as long as a score is open: its file, what is wanted there, whether its
    editor takes edits with a version, and whether it asks for the edits of an action when that is
    chosen, and whether it shows markdown."""

    uri: str
    name: str
    settings: Settings
    with_rules: bool
    takes_versions: bool
    resolves_actions: bool = False
    takes_markdown: bool = False

    @property
    def selection(self) -> Selection:
        return self.settings.selection(self.name)

    @property
    def style(self) -> Style:
        return style_by(self.settings)


class Document:
    """A score as it stands in an editor. It does not change: a change makes another one."""

    def __init__(self, file: File, text: Text, version: int | None) -> None:
        self.file, self.text, self.version = file, text, version
        # What is called now and then during a long answer; it raises where nobody waits for that
        # any more.
        self.pause: Pause = go_on
        self._found: tuple[Message, ...] | None = None

    def changed(self, change: Callable[[Text], Text], version: int | None) -> Document:
        """Returns the score with another text."""
        return Document(self.file, change(self.text), version)

    @cached_property
    def compiled(self) -> Compiled:
        return Compiled(self.text.data)

    @property
    def is_text(self) -> bool:
        """Whether all of it is UTF-8: half a character of UTF-16, which an editor may send, is
        none."""
        return is_text(self.text.data)

    def find(self, pause: Pause = go_on) -> tuple[Message, ...]:
        """Returns all that is found, by the rules too where they are wanted."""
        if self._found is None:
            self._found = (
                messages_with_rules(self.compiled, pause)
                if self.file.with_rules
                else unsilenced(self.compiled)
            )
        return self._found

    @cached_property
    def messages(self) -> tuple[Message, ...]:
        """The messages that are reported."""
        return self.file.selection.of(self.find())

    @cached_property
    def helps(self) -> tuple[str | None, ...]:
        """The help for each message that is reported."""
        return helps_for(self.compiled, self.messages) if self.messages else ()

    @cached_property
    def subject(self) -> Subject:
        """The text beside the messages of the compiler."""
        return Subject(self.compiled)

    @cached_property
    def score(self) -> Score:
        """The score as objects, up to a fatal fault."""
        return self.compiled.score

    @property
    def parts(self) -> Parts:
        """Where headers, syllables and comments stand, up to a fatal fault that stops the score."""
        return self.subject.parts

    def offset(self, message: Message) -> int:
        return self.subject.offset(message)
