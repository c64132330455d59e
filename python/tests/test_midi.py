"""Tries `export --to midi`: the files are read back by `mido`."""
from __future__ import annotations

import io
import os
import unittest
from pathlib import Path

from support import FAULTY, InFolder, command, files_of_scores, has, scores_of_tables, without

from gregorio_chant.dump import Score, ScoreError

SCORE = (
    "name: K\u00fdrie;\n%%\n(c4) K\u00fd(f.)ri(gixi)e,(fe..) (,) <i>e</i>(h`) *()"
    " l\u00e9(jvv)i(f##fv) (::)"
)


@unittest.skipUnless(has("mido"), "there is no mido")
class Midi(InFolder):
    def read(self, data: bytes) -> tuple[list[tuple[int, int, int]], list[tuple[int, str]]]:
        """Reads a file back. Returns the notes, each with its begin and length in ticks and its
        key, and the lyrics with their begins."""
        import mido

        file = mido.MidiFile(file=io.BytesIO(data), charset="utf-8")
        self.assertEqual((file.type, file.ticks_per_beat, len(file.tracks)), (0, 480, 1))
        at = 0
        notes, lyrics, begun = [], [], {}
        for message in file.tracks[0]:
            at += message.time
            if message.type == "note_on":
                begun[message.note] = at
            elif message.type == "note_off":
                begin = begun.pop(message.note)
                notes.append((begin, at - begin, message.note))
            elif message.type == "lyrics":
                lyrics.append((at, message.text))
        self.assertEqual(begun, {})
        return notes, lyrics

    def test_notes(self) -> None:
        from gregorio_chant.export.midi import midi_of

        notes, lyrics = self.read(midi_of(Score.parse(SCORE), 120))
        self.assertEqual(
            notes,
            [
                (0, 960, 53),
                (960, 480, 55),
                (1440, 480, 58),
                (1920, 960, 53),
                (2880, 960, 52),
                (4320, 480, 57),
                (5040, 480, 60),
                (5520, 480, 60),
                (6000, 480, 54),
            ],
        )
        self.assertEqual(
            lyrics,
            [
                (0, "K\u00fd-"),
                (960, "ri-"),
                (1920, "e, "),
                (4320, "e "),
                (5040, "l\u00e9-"),
                (6000, "i "),
            ],
        )

    def test_head(self) -> None:
        import mido

        from gregorio_chant.export.midi import midi_of

        track = mido.MidiFile(
            file=io.BytesIO(midi_of(Score.parse(SCORE), 150)), charset="utf-8"
        ).tracks[0]
        self.assertEqual([it.name for it in track if it.type == "track_name"], ["K\u00fdrie"])
        self.assertEqual([it.tempo for it in track if it.type == "set_tempo"], [400_000])
        self.assertEqual(track[-1].type, "end_of_track")

    def test_scores(self) -> None:
        """All notes of the scores come back, in order and with their heights, and all syllables."""
        from gregorio_chant.export.midi import midi_of
        from gregorio_chant.objects.sounds import NoteBeforeClef

        tried = 0
        for data in [*(it.read_bytes() for it in files_of_scores()), *scores_of_tables()]:
            try:
                score = Score.parse(data)
                notes, lyrics = self.read(midi_of(score, 140))
            except ScoreError:
                continue
            except NoteBeforeClef as error:
                self.assertIn("a note before any clef has no sound", str(error))
                continue
            times = {"bivirga": 2, "distropha": 2, "trivirga": 3, "tristropha": 3}
            awaited = [
                48 + (it.semitones or 0)
                for it in score.notes
                for _ in range(times.get(it.shape, 1))
            ]
            self.assertEqual([key for _, _, key in notes], awaited)
            hyphens = {"beginning": "-", "middle": "-"}
            texts = [
                f"{text}{hyphens.get(it.position, ' ')}"
                for it in score.syllables
                if it.notes and (text := it.plain.strip())
            ]
            self.assertEqual([text for _, text in lyrics], texts)
            self.assertTrue(all(length in (480, 960) for _, length, _ in notes))
            tried += 1
        self.assertGreater(tried, 100)

    def test_files(self) -> None:
        self.put("s/a.gabc", SCORE)
        self.put("s/b.gabc", "%%\n(c4) a(f) b(g")
        self.put("s/c.gabc", "%%\na(f)")
        ran = command("export", "--to", "midi", "s")
        self.assertEqual(ran.returncode, 2)
        self.assertEqual(
            ran.stderr.decode(),
            (
                "gregorio-chant: s/b.gabc:2:12: F6: input ends inside notes, a tag, a raw part or a"
                " translation; it is not written\ngregorio-chant: s/c.gabc:2:3: a note before any"
                " clef has no sound; it is not written\ngregorio-chant: 1 file written\n"
            ),
        )
        self.assertEqual(sorted(os.listdir("s")), ["a.gabc", "a.mid", "b.gabc", "c.gabc"])
        first = Path("s/a.mid").read_bytes()
        self.assertEqual(command("export", "--to", "midi", "-", data=SCORE.encode()).stdout, first)
        again = command("export", "--to", "midi", "--quiet", "s/a.gabc")
        self.assertEqual(
            (again.returncode, again.stderr),
            (
                4,
                (
                    b"gregorio-chant: cannot export s/a.gabc: there is a file of this name already;"
                    b" --force writes over it\n"
                ),
            ),
        )
        self.assertEqual(
            command("export", "--to", "midi", "--force", "--tempo", "60", "s/a.gabc").returncode, 0
        )
        self.assertNotEqual(Path("s/a.mid").read_bytes(), first)
        os.mkdir("out")
        self.assertEqual(
            command("export", "--to", "midi", "--folder", "out", "s/a.gabc").returncode, 0
        )
        self.assertEqual(Path("out/a.mid").read_bytes(), first)
        self.assertEqual(
            command("export", "--to", "midi", "--folder", "none", "s/a.gabc").returncode, 4
        )

    def test_full_disk(self) -> None:
        """A file that could not be written whole is not left there."""
        self.put("a.gabc", SCORE)
        ran = command("export", "--to", "midi", "a.gabc", limit=50)
        self.assertEqual((ran.returncode, os.listdir(".")), (4, ["a.gabc"]))


class Words(InFolder):
    def test_refusals(self) -> None:
        self.put("a.gabc", FAULTY)
        for words, told in (
            (("export", "a.gabc"), "--to"),
            (("export", "--to", "mid", "a.gabc"), "did you mean midi?"),
            (("export", "--to", "midi"), "a PATH is needed"),
            (("export", "--to", "midi", "--tempo", "1001", "a.gabc"), "at most 1,000"),
        ):
            ran = command(*words)
            self.assertEqual((ran.returncode, ran.stdout), (3, b""))
            self.assertIn(told, ran.stderr.decode())

    def test_no_mido(self) -> None:
        ran = command("export", "--to", "midi", "a.gabc", environment=without(self.room, "mido"))
        self.assertEqual(
            (ran.returncode, ran.stderr),
            (
                3,
                (
                    b"gregorio-chant: export --to midi needs the package mido: apt install"
                    b" python3-mido in Debian, else pip install mido\n"
                ),
            ),
        )
