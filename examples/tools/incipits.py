"""Prints for each score of a folder its name, its first degrees and its first words: python incipits.py FOLDER"""
import sys
from pathlib import Path

from gregorio_chant import index

files = sorted(Path(sys.argv[1]).rglob("*.gabc"))
for file, it in zip(files, index(file.read_bytes() for file in files)):
    print(it.name or file.name, it.degrees, it.text, sep=", ")
