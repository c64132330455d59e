"""Servers that are for this machine alone: which requests are sent to such a one by its own name,
and by no page of another place. A browser sends all others too, since a page of the web may ask
this machine, and any name may lead to its address."""
from __future__ import annotations

from collections.abc import Collection, Sequence

ADDRESS = "127.0.0.1"
_NAMES = (ADDRESS, "localhost")


def own_names(port: int) -> frozenset[str]:
    """Returns what `Host` may say in a request to the server at this port of the machine."""
    return frozenset(name + end for name in _NAMES for end in ("", f":{port}"))


def is_of_this_place(hosts: Sequence[str], origins: Sequence[str], names: Collection[str]) -> bool:
    """Returns whether a request with these headers `Host` and `Origin` was sent to a server of
    these names, and by no page of another one.

    >>> is_of_this_place(["localhost:80"], [], own_names(80))
    True
    >>> is_of_this_place(["localhost.example:80"], [], own_names(80))
    False
    """
    return (
        len(hosts) == 1
        and hosts[0].lower() in names
        and all(it == f"http://{hosts[0]}" for it in origins)
    )
