"""A language server over standard streams. It stands outside the proof of the compiler, and is only
tested."""
