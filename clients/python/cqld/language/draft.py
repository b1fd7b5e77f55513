"""What the parts of a rewriting share: the query, the edits of its text, and notes on them."""

from collections.abc import Mapping
from dataclasses import dataclass

from .comparisons import Comparisons
from .dialect import FriendlyQuery
from .faults import Fault
from .names import Column, resolve
from .query import Span
from .reader import read
from .types import Declared, Numbered, Type


@dataclass(frozen=True, slots=True)
class Edit:
    """A text in place of a span."""

    span: Span
    text: str


class Draft:
    """A query whose names are looked up, and what its rewriting has found so far."""

    def __init__(
        self, friendly: FriendlyQuery, streams: Mapping[str, Declared], numbered: Numbered
    ) -> None:
        """Looks the names up. Raises `Fault`."""
        declared = [streams[it.stream] for it in friendly.query.sources if it.stream in streams]
        columns = {name for stream in declared for name in stream.columns}
        self.friendly = friendly.with_truths(columns)
        self.text = friendly.text
        self.query = self.friendly.query
        self.streams = streams
        self.names = {name: list(stream.columns) for name, stream in streams.items()}
        self.resolved = resolve(self.query, self.names, self.text)
        self.comparisons = Comparisons(self.text, numbered)
        self.notes: list[str] = []
        self._edits: list[Edit] = []

    def edit(self, span: Span, text: str) -> None:
        """Puts a text in place of a span."""
        self._edits.append(Edit(span, text))

    def note(self, sentence: str) -> None:
        """Notes what was changed, or what the client does."""
        self.notes.append(sentence)

    def fault(self, code: str, span: Span, reason: str) -> Fault:
        """Returns a fault at a span."""
        found = self.text[span.start : span.end]
        return Fault(code, self.text, span.start, found=found, reason=reason)

    def type_of(self, column: Column) -> Type:
        """Returns the type of a column."""
        declared = self.streams[self.query.sources[column.source].stream]
        return list(declared.columns.values())[column.place]

    def engine_text(self) -> str:
        """Returns the text with its edits, as the engine reads it. Raises `Fault`."""
        pieces: list[str] = []
        at = 0
        for edit in sorted(self._edits, key=lambda edit: (edit.span.start, edit.span.end)):
            pieces += [self.text[at : edit.span.start], edit.text]
            at = edit.span.end
        written = "".join([*pieces, self.text[at:]])
        written = " ".join(written.split()).removesuffix(";").rstrip().replace(" )", ")")
        try:
            resolve(read(written), self.names, written)
        except Fault as fault:
            reason = f"{fault.reason}, once it is written for the engine as `{written[:200]}`"
            raise Fault(fault.code, self.text, None, reason=reason) from None
        return written
