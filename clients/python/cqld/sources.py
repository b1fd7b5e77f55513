"""Finds the streams that a query reads in its text."""

from __future__ import annotations

import re

_TOKEN = re.compile(r"[A-Za-z_][A-Za-z0-9_]*|[^\sA-Za-z_]")
_AFTER = frozenset(("where", "group", ")", ";"))  # what may come after the last source


def sources_of(text: str) -> tuple[str, ...]:
    """Returns the names of the streams after `From`, each once; none where there is no `From`.

    Which text is a query is for the engine to say.
    """
    tokens = _TOKEN.findall(text)
    words = [token.lower() for token in tokens]
    if "from" not in words:
        return ()
    found: dict[str, None] = {}
    is_first, depth = True, 0
    begin = words.index("from") + 1
    for token, word in zip(tokens[begin:], words[begin:]):
        if word in _AFTER and depth == 0:
            break
        depth += (word == "[") - (word == "]")
        if is_first:
            found[token] = None
        is_first = word == "," and depth == 0
    return tuple(found)
