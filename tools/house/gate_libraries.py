"""The libraries that the gate has built: they hold statements alone, so `rt` gives them no stamp,
and builds its own in their place. Here the prover is called over them."""

from __future__ import annotations

import os

from house.kit import Crate


def are_built(crate: Crate, is_new: bool) -> bool:
    """Builds the libraries below the crate that are not up to date, and returns whether all stand.
    With `is_new` those of the gate are taken as they are."""
    for library in crate.below():
        has_stamp = os.path.exists(f"{library.folder}/out/rlib/stamp")
        is_taken = is_new and os.path.isdir(library.rlib) and not has_stamp
        if not is_taken and library.build_rlib(["--jobs", "1"], anew=False):
            return False
    return True
