"""How messages are told: as lines, text, JSON, annotations of a forge, SARIF."""
