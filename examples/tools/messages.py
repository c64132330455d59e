"""Prints what is wrong in scores as JSON, with help and repairs: python messages.py SCORE.."""
import json
import sys
from dataclasses import asdict
from pathlib import Path

from gregorio_chant import lint

json.dump({name: [asdict(it) for it in lint(Path(name).read_bytes())] for name in sys.argv[1:]}, sys.stdout, indent=2)
