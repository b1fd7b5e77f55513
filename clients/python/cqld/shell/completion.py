"""What may come next at the prompt: statements, keywords, and names that the session knows."""

import re
from collections.abc import Iterable

from ..language import UNITS
from .helping import TOPICS
from .session import Session

_FIRST = sorted(
    {topic.name for topic in TOPICS} | {"heartbeat", "show queries", "insert into", "drop query"}
)
_KEYWORDS = (
    "Select Distinct Istream Dstream Rstream From As Where Group By And Or Not Range Rows "
    "Partition Now Unbounded Slide Count Sum Min Max Avg Having Every"
).split()
_COPY = "from stdin by time late null".split() + ["on late skip", "on bad skip", "keep open"]
_TYPES = ("text", "int", "decimal(2)", "bool", "time")
_AFTER = {
    "from": "streams",
    "into": "streams",
    "copy": "streams",
    "close": "streams",
    "heartbeat": "streams",
    "show": "queries",
    "watch": "queries",
    "explain": "queries",
    "describe": "all",
    "query": "queries",
    "unit": "units",
    "output": "modes",
    "help": "topics",
}
_WORD = re.compile(r"[A-Za-z_0-9.\\]*$")


def completions(text: str, session: Session | None) -> list[str]:
    """Returns the words that may stand in place of the one at the end of the text, sorted.

    The text is that of the statement up to the cursor.
    """
    match = _WORD.search(text)
    word = match.group() if match else ""
    before = text[: len(text) - len(word)]
    return sorted(
        {each for each in _offered(before, word, session) if each.lower().startswith(word.lower())},
        key=lambda each: (each.lower(), each),
    )


def word_at_end(text: str) -> str:
    """Returns the word at the end of the text, which a completion takes the place of."""
    match = _WORD.search(text)
    return match.group() if match else ""


def _offered(before: str, word: str, session: Session | None) -> Iterable[str]:
    words = re.findall(r"[A-Za-z_0-9]+|[^\sA-Za-z_0-9]", before.lower())
    if not words:
        return _FIRST
    if before.count("'") % 2:
        return ()
    streams = list(session.streams) if session else []
    queries = list(session.queries) if session else []
    is_text = any(each in words for each in ("select", "istream", "dstream", "rstream"))
    last = words[-1]
    if words[:2] == ["create", "stream"] and last not in (",", "(", "stream", "unit"):
        return (*_TYPES, "unit", "start", "since")
    after = None if is_text and last not in ("from", "into") else _AFTER.get(last)
    if after == "queries" and words[0] == "create":
        return ()
    known = {
        "streams": streams,
        "queries": [*queries, *(["streams", "queries"] if last == "show" else [])],
        "all": [*streams, *queries],
        "units": list(UNITS),
        "modes": ["table", "csv", "json"],
        "topics": [topic.name for topic in TOPICS],
    }
    if after is not None:
        return known[after]
    if words[0] == "create" and words[1:2] == ["query"]:
        return [*_KEYWORDS, *_columns(session, word), *streams]
    if words[0] == "copy":
        return _COPY
    later = {"create": ["stream", "query"], "drop": ["query"], "insert": ["into"]}
    later |= {"close": ["to"], "heartbeat": ["at"], "show": ["first", "last", "all"]}
    later |= {"watch": ["for"]}
    found = later.get(words[0], [])
    return [*found, "values"] if words[0] == "insert" and len(words) > 2 else found


def _columns(session: Session | None, word: str) -> list[str]:
    if session is None:
        return []
    qualifier, dot, _ = word.rpartition(".")
    columns = [name for state in session.streams.values() for name in state.declared.columns]
    return [f"{qualifier}.{name}" for name in columns] if dot else columns
