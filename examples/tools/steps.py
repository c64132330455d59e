"""Prints where notes follow each other at these steps up or down: python steps.py SCORE STEP.."""
import sys
from pathlib import Path

from gregorio_chant.dump import Score, intervals

notes = Score.parse(Path(sys.argv[1]).read_bytes()).notes
steps, wanted = [it and it.steps for it in intervals(notes)], [int(it) for it in sys.argv[2:]]
print(*(f"{sys.argv[1]}:{notes[at].source}" for at in range(len(steps)) if steps[at : at + len(wanted)] == wanted), sep="\n")
