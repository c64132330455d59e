"""The sub-commands of `gregorio-chant`: a module for each, with its words, its help and what it
does."""
