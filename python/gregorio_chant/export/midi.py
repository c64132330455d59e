"""A score as a file of MIDI: its notes all of one length, for listening. It stands on the package
`mido`."""
from __future__ import annotations

import io

import mido

from gregorio_chant.objects.score import Score
from gregorio_chant.objects.sounds import TICKS, sounds_of

_VELOCITY = 80


def midi_of(score: Score, notes_a_minute: int) -> bytes:
    """Returns the file of a score, at so many notes a minute. Raises `NoteBeforeClef`."""
    track = mido.MidiTrack()
    name = score.header("name")
    if name:
        track.append(mido.MetaMessage("track_name", name=name))
    track.append(mido.MetaMessage("set_tempo", tempo=mido.bpm2tempo(notes_a_minute)))
    rest = 0
    for it in sounds_of(score.syllables):
        if it.key is None:
            rest += it.ticks
            continue
        if it.text is not None:
            track.append(mido.MetaMessage("lyrics", text=it.text, time=rest))
            rest = 0
        track.append(mido.Message("note_on", note=it.key, velocity=_VELOCITY, time=rest))
        track.append(mido.Message("note_off", note=it.key, velocity=0, time=it.ticks))
        rest = 0
    track.append(mido.MetaMessage("end_of_track", time=rest))
    made = mido.MidiFile(type=0, ticks_per_beat=TICKS, charset="utf-8")
    made.tracks.append(track)
    written = io.BytesIO()
    made.save(file=written)
    return written.getvalue()
