"""Writes a score with all that has a pitch some steps higher, or lower below 0, and all else as it was: python transpose.py STEPS <SCORE"""
import sys

from gregorio_chant.dump import Score

sys.stdout.buffer.write(Score.parse(sys.stdin.buffer.read()).edited().transpose(int(sys.argv[1])).text().encode())
