"""The exit statuses of the command beside those of a score, which are 0 to 2."""
from __future__ import annotations

# Wrong arguments, or a missing package.
REFUSED = 3
CANNOT_READ_OR_WRITE = 4
NO_MEMORY = 5
