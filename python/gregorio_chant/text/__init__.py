"""The text of a score: how the compiler and how editors count it, and the words of its language."""
