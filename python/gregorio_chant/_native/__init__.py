"""The proved library for C: its calls on whole scores, on scores in pieces and for trees, and what
they answer."""
