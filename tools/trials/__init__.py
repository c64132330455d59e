"""Trials of built programs and of scripts, which pytest runs."""
