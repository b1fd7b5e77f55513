"""Follows a query on an `AsyncClient`."""

from __future__ import annotations

from collections.abc import AsyncIterator, Sequence
from types import TracebackType
from typing import TYPE_CHECKING, Any, Generic

from .follow import Decoder, Following, Item
from .wire import Seconds

if TYPE_CHECKING:
    from .aio import AsyncClient, AsyncPending


class AsyncFollow(Following["AsyncPending"], AsyncIterator[Item], Generic[Item]):
    """Is an asynchronous iterator over the answers of a query. It has the rules of `Follow`.

        async with client.follow("high", beat=5) as answers:
            async for row in answers:
                print(row)
    """

    def __init__(
        self,
        client: "AsyncClient",
        query: str,
        sources: Sequence[str],
        pause: Seconds,
        deadline: Seconds | None,
        beat: Seconds | None,
        limit: int,
        decoder: Decoder | None,
        timeout: Seconds | None,
    ) -> None:
        """Is what `follow` of a client returns. `sources` are the streams that the query reads."""
        super().__init__(client.send, query, sources, False, pause, deadline, beat, limit, decoder)
        self._client = client
        self._timeout = timeout

    def __aiter__(self) -> "AsyncFollow[Item]":
        return self

    async def __anext__(self) -> Item:
        """Returns the next answer, or a `Beat`. Ends at the deadline. Raises as every call."""
        item: Item | None = self._in_hand()
        if item is None:
            item = await self._client._advance(self._next_steps(), self._timeout)
        if item is None:
            raise StopAsyncIteration
        return item

    async def __aenter__(self) -> "AsyncFollow[Item]":
        return self

    async def __aexit__(
        self,
        kind: type[BaseException] | None,
        error: BaseException | None,
        trace: TracebackType | None,
    ) -> None:
        await self._client._advance(self._exit_steps(error is None), self._timeout)

    async def confirm(self) -> None:
        """Takes every answer that was handed out. Raises `OtherConsumer`, and as every call."""
        await self._client._advance(self._confirm_steps(), self._timeout)
