"""Repairs a score and writes it in canonical spelling, or says why it stays as it is: python tidy.py <SCORE"""
import sys

from gregorio_chant import fix, format_text

made = format_text(fix(sys.stdin.buffer.read()).text)
if made.reasons:
    sys.exit("\n".join(made.reasons))
sys.stdout.buffer.write(made.text.encode())
