"""What the server does for a score that is open: each request of the protocol, and what answers
it."""
from __future__ import annotations

from collections.abc import Callable

from gregorio_chant import __version__
from gregorio_chant.server.actions import KINDS, actions, resolved
from gregorio_chant.server.completion import TRIGGERS, completion
from gregorio_chant.server.document import Document
from gregorio_chant.server.formats import RequestRefused, formatted_all, formatted_lines
from gregorio_chant.server.hover import hover
from gregorio_chant.server.outline import foldings, symbols
from gregorio_chant.server.pictures import svg
from gregorio_chant.server.protocol import Json, Params
from gregorio_chant.server.tokens import KINDS as TOKENS
from gregorio_chant.server.tokens import tokens
from gregorio_chant.work.streams import NAME

__all__ = ["CAPABILITIES", "FEATURES", "SHOW", "RequestRefused"]

_INCREMENTAL = 2
# The request for the edits of an action that was chosen.
RESOLVE = "codeAction/resolve"

FEATURES: dict[str, Callable[[Document, Params], Json]] = {
    "textDocument/codeAction": actions,
    RESOLVE: resolved,
    "textDocument/completion": completion,
    "textDocument/documentSymbol": symbols,
    "textDocument/foldingRange": foldings,
    "textDocument/formatting": formatted_all,
    "textDocument/hover": hover,
    "textDocument/rangeFormatting": formatted_lines,
    "textDocument/semanticTokens/full": tokens,
    "gregorio/picture": svg,
}
# The command that opens the picture in a browser.
SHOW = "gregorio-chant.show"

CAPABILITIES: Json = {
    "capabilities": {
        "positionEncoding": "utf-16",
        "textDocumentSync": {"openClose": True, "change": _INCREMENTAL},
        "codeActionProvider": {"codeActionKinds": KINDS, "resolveProvider": True},
        "executeCommandProvider": {"commands": [SHOW]},
        "completionProvider": {"triggerCharacters": TRIGGERS},
        "documentFormattingProvider": True,
        "documentRangeFormattingProvider": True,
        "documentSymbolProvider": True,
        "foldingRangeProvider": True,
        "hoverProvider": True,
        "semanticTokensProvider": {
            "legend": {"tokenTypes": TOKENS, "tokenModifiers": []},
            "full": True,
        },
    },
    "serverInfo": {"name": NAME, "version": __version__},
}
