"""Prints each neume of scores, with its place: python neumes.py SCORE.."""
import sys
from pathlib import Path

from gregorio_chant.dump import Score

for name in sys.argv[1:]:
    for syllable in Score.parse(Path(name).read_bytes()).syllables:
        for glyph in syllable.glyphs:
            print(f"{name}:{glyph.source}: {glyph.kind} {glyph.spelling} {syllable.plain}")
