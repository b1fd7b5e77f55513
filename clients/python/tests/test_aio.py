"""The client for asyncio, over the real server and over servers that fail."""

from __future__ import annotations

import asyncio
import threading
from collections.abc import AsyncIterator, Coroutine, Mapping
from contextlib import asynccontextmanager
from typing import Any

from support import PATIENCE, Case

from cqld import (
    Answers,
    AsyncClient,
    AsyncWatermark,
    BadReply,
    BadRow,
    BatchRefused,
    Beat,
    CannotConnect,
    ClockBack,
    Closed,
    ConnectionLost,
    Int,
    OtherConsumer,
    Refused,
    Schema,
    Skipped,
    TimedOut,
)

ALL = "Select Istream(*) From S [Now]"
DONE = {"ok": True}


async def all_answers(client: AsyncClient, query: str, count: int) -> list[list[int | None]]:
    """Takes answers until there are so many."""
    rows: list[list[int | None]] = []
    async with asyncio.timeout(PATIENCE):
        while len(rows) < count:
            rows += [row async for row in client.answers(query)]
    return rows


class Async(Case):
    """Each test runs a coroutine."""

    def run_in(self, main: Coroutine[Any, Any, None]) -> None:
        asyncio.run(asyncio.wait_for(main, 2 * PATIENCE))

    @asynccontextmanager
    async def fed(self, count: int, port: int | None = None) -> AsyncIterator[AsyncClient]:
        """Has a client that has appended so many rows to S, over which q is.

        It is one of a real server, unless there is a port.
        """
        async with AsyncClient(port or self.server().port, timeout=PATIENCE) as it:
            await it.stream("S", ["a"])
            await it.query("q", ALL)
            self.assertEqual(await it.append("S", ((n, n) for n in range(count))), count)
            if count:
                await it.heartbeat("S", count - 1)
            yield it

    async def worked(self, it: AsyncClient, instant: int) -> None:
        """Waits until the workers have done all up to an instant."""
        async with asyncio.timeout(PATIENCE):
            while (await it.status()).queries["q"].upto < instant:
                await asyncio.sleep(0.005)

    async def taken(self, it: AsyncClient) -> int:
        """Returns how many answers of q were taken."""
        return (await it.status()).queries["q"].taken

    def test_every_call_is_answered(self) -> None:
        async def main() -> None:
            async with AsyncClient(self.server().port, timeout=PATIENCE) as it:
                await it.stream("S", ["a", "b"], 1)
                await it.query("q", ALL, [(1, 1), (1, 1), (1, 0)])
                kinds = [one.kind for one in await it.plan("q")]
                self.assertEqual(kinds, ["Window", "Project", "ToStream"])
                self.assertEqual(await it.append("S", [(1, 5, None), [2, 0, -1]]), 2)
                await it.heartbeat("S", 2)
                self.assertEqual(await all_answers(it, "q", 2), [[1, 5, None], [2, 0, -1]])
                self.assertEqual(await it.take("q"), [])
                await it.drain()
                await it.forget()
                await it.drop("q")
                with self.assertRaises(Refused) as caught:
                    await it.take("q")
                self.assertEqual(caught.exception.fault, "E6 UnknownQuery")
                with self.assertRaises(Refused) as caught:
                    await it.peek("q")
                self.assertEqual(caught.exception.fault, "E6 UnknownQuery")
                status = await it.status()
                self.assertEqual((status.streams["S"].closed, dict(status.queries)), (2, {}))
            with self.assertRaises(Closed):
                await it.drain()

        self.run_in(main())

    def test_requests_of_many_tasks_pipeline(self) -> None:
        async def main() -> None:
            async with self.fed(0) as it:
                asked = [it.append("S", [(n, n)]) for n in range(2_000)]
                self.assertEqual(await asyncio.gather(*asked), [1] * 2_000)
                await it.heartbeat("S", 1_999)
                rows = await all_answers(it, "q", 2_000)
                self.assertEqual(rows, [[n, n] for n in range(2_000)])

        self.run_in(main())

    def test_batch_is_carried_out_in_order(self) -> None:
        async def main() -> None:
            async with AsyncClient(self.server().port, timeout=PATIENCE) as it:
                with self.assertRaises(BatchRefused) as caught:
                    async with it.batch() as batch:
                        await batch.stream("S", ["a"])
                        await batch.query("q", ALL)
                        await batch.append("S", ((n, n) for n in range(5_000)))
                        await batch.heartbeat("S", 4_999)
                        await batch.heartbeat("S", 7)
                        await batch.append("S", [(1, 1)])
                codes = [one.code for one in caught.exception.refusals]
                self.assertEqual(codes, ["E11", "E10"])
                self.assertEqual(len(await all_answers(it, "q", 5_000)), 5_000)
                with self.assertRaises(KeyError):
                    async with it.batch() as batch:
                        await batch.heartbeat("T", 1)
                        raise KeyError
                self.assertEqual([one.code for one in batch.refusals], ["E5"])
                with self.assertRaises(asyncio.CancelledError):
                    async with it.batch() as batch:
                        await batch.heartbeat("S", 5_000)
                        raise asyncio.CancelledError
                self.assertEqual([reply for _, reply in await it.settle()], [DONE])

        self.run_in(main())

    def test_append_takes_any_iterable_and_skips(self) -> None:
        async def feed() -> AsyncIterator[tuple[int, object]]:
            for number in range(3_000):
                yield (0 if number % 1_000 == 500 else 5 + number), number
                if number == 1_500:
                    yield 5, "x"

        async def main() -> None:
            async with AsyncClient(self.server().port, timeout=PATIENCE) as it:
                await it.stream("S", ["a"], 5)
                await it.query("q", ALL)
                skipped = Skipped()
                taken = await it.append("S", feed(), skip=skipped)
                self.assertEqual(taken, 2_997)
                self.assertEqual([one.index for one in skipped.late], [500, 1_500, 2_501])
                self.assertEqual([one.index for one in skipped.bad], [1_501])
                skipped = Skipped()
                async with it.batch() as batch:
                    self.assertEqual(await batch.append("S", [(4, 1), (5, 1)], skip=skipped), 1)
                self.assertEqual(len(skipped), 1)
                with self.assertRaises(BadRow) as caught:
                    await it.append("S", [(6, 1), (7, "x")], schema=Schema({"a": Int()}))
                self.assertEqual((caught.exception.index, caught.exception.column), (1, "a"))
                self.assertEqual(caught.exception.taken, 1)

        self.run_in(main())

    def test_late_replies_are_settled(self) -> None:
        go = threading.Event()

        def slow(request: Mapping[str, Any]) -> Mapping[str, Any]:
            if request["op"] == "take":
                go.wait(PATIENCE)
                return {"ok": True, "rows": [[1, 2]]}
            return DONE

        async def main() -> None:
            async with AsyncClient(self.fake(slow).port, timeout=PATIENCE) as it:
                with self.assertRaises(TimedOut) as caught:
                    await it.take("q", timeout=0.05)
                self.assertEqual([one["op"] for one in caught.exception.unknown], ["take"])
                cancelled = asyncio.create_task(it.take("r"))
                await asyncio.sleep(0)
                cancelled.cancel()
                with self.assertRaises(asyncio.CancelledError):
                    await cancelled
                pending = it.send("drain")
                with self.assertRaises(TimedOut):
                    await pending.reply(0.05)
                go.set()
                self.assertEqual(await pending.reply(), DONE)
                late = await it.settle()
                self.assertEqual([request["query"] for request, _ in late], ["q", "r"])
                self.assertEqual(late[0][1]["rows"], [[1, 2]])
                self.assertEqual(await it.settle(), [])

        self.run_in(main())

    def test_lost_connection_says_what_is_unknown(self) -> None:
        fake = self.fake(lambda request: None if request["op"] == "forget" else DONE)

        async def main() -> None:
            async with AsyncClient(fake.port, timeout=PATIENCE) as it:
                await it.drain()
                calls = [it.heartbeat("S", 1), it.forget(), it.drain()]
                done = await asyncio.gather(*calls, return_exceptions=True)
                self.assertIsNone(done[0])
                for lost in done[1:]:
                    assert isinstance(lost, ConnectionLost)
                    self.assertEqual([one["op"] for one in lost.unknown], ["forget", "drain"])
                with self.assertRaises(Closed):
                    await it.drain()
                unknown = await it.reconnect()
                self.assertEqual([one["op"] for one in unknown], ["forget", "drain"])
                await it.drain()
            fake.close()
            with self.assertRaises(CannotConnect):
                await it.reconnect(0.05)

        self.run_in(main())

    def test_replies_of_something_else_are_bad(self) -> None:
        async def main() -> None:
            for line in (b"HTTP/1.1 400 Bad Request\r\n", b"[]\n", b"{}\n" * 2):
                fake = self.fake(lambda request: line)
                async with AsyncClient(fake.port, timeout=PATIENCE) as it:
                    with self.assertRaises(BadReply):
                        await it.drain()

        self.run_in(main())

    def test_follow_yields_answers_and_beats(self) -> None:
        async def main() -> None:
            async with self.fed(0) as it:
                found: list[Any] = []

                async def write() -> None:
                    async with AsyncClient(it.port, timeout=PATIENCE) as writer:
                        for instant in range(50):
                            await writer.append("S", [(instant, instant)])
                            await writer.heartbeat("S", instant)

                async with it.follow("q", 0.001, beat=0.05, deadline=PATIENCE) as answers:
                    writing = None
                    async for row in answers:
                        if isinstance(row, Beat):
                            writing = writing or asyncio.create_task(write())
                            continue
                        found.append(row)
                        if len(found) == 50:
                            break
                assert writing is not None
                await writing
                self.assertEqual(found, [[n, n] for n in range(50)])
                self.assertEqual([row async for row in it.follow("q", deadline=0.05)], [])

        self.run_in(main())

    def test_follow_takes_what_was_handled(self) -> None:
        async def main() -> None:
            async with self.fed(10) as it:
                await self.worked(it, 9)
                follow = it.follow("q", limit=4)
                self.assertEqual([(await anext(follow))[0] for _ in range(4)], [0, 1, 2, 3])
                self.assertEqual(await self.taken(it), 0)
                await anext(follow)
                self.assertEqual(await self.taken(it), 4)
                self.assertEqual(follow.unseen, [[n, n] for n in range(5, 8)])
                with self.assertRaises(KeyError):
                    async with it.follow("q") as answers:
                        async for row in answers:
                            if row[0] == 7:
                                raise KeyError
                self.assertEqual(await self.taken(it), 7)
                items: list[Any] = []
                async for item in it.follow("q", 0.001, beat=0.02, deadline=PATIENCE):
                    items.append(item)
                    if isinstance(item, Beat):
                        break
                self.assertEqual(items, [[7, 7], [8, 8], [9, 9], Beat(9)])
                await it.append("S", [(n, n) for n in range(10, 20)])
                await it.heartbeat("S", 19)
                await self.worked(it, 19)
                follow = it.follow("q")
                await anext(follow)
                await it.take("q", 3)
                with self.assertRaises(OtherConsumer):
                    await follow.confirm()
                schema = Schema({"a": Int()})
                answers_of_s = Answers("s", ALL, {"S": schema})
                decoded = await anext(it.follow("q", decoder=answers_of_s))
                self.assertEqual((decoded.instant, decoded.a), (14, 14))

        self.run_in(main())

    def test_unseen_answers_are_kept(self) -> None:
        """Over a program without `peek`, which takes answers before they are handed out."""
        standin = self.standin()
        standin.faults = {"peek": "N2 BadRequest", "status": "N2 BadRequest"}

        async def main() -> None:
            async with self.fed(10, standin.port) as it:
                follow = it.follow("q", limit=4)
                self.assertEqual(await anext(follow), [0, 0])
                self.assertEqual(standin.taken("q"), 4)
                self.assertEqual(follow.unseen, [[1, 1], [2, 2], [3, 3]])
                self.assertEqual(await anext(follow), [1, 1])

        self.run_in(main())

    def test_answers_wait_for_workers(self) -> None:
        """Over a real server, and over stand-ins where work is never late or only a drain works."""
        async def main(port: int) -> None:
            async with self.fed(5_000, port) as it:
                found = [row async for row in it.answers("q")]
                self.assertEqual(found, [[n, n] for n in range(5_000)])
                self.assertEqual(await self.taken(it), 5_000)
                await it.append("S", [(5_000, 1)])
                late = asyncio.create_task(it.heartbeat("S", 5_000))
                last = [row async for row in it.answers("q", 5_000)]
                await late
                self.assertEqual(last, [[5_000, 1]])
                await it.drop("q")
                with self.assertRaises(Refused):
                    await anext(it.answers("q", 1))

        self.run_in(main(self.server().port))
        for works, drains in ((True, 0), (False, 1)):
            standin = self.standin(works)
            self.run_in(main(standin.port))
            self.assertEqual(min(standin.count("drain"), 1), drains)

    def test_follow_that_is_cancelled_loses_nothing(self) -> None:
        async def main() -> None:
            async with self.fed(500) as it:
                follow = it.follow("q", 0.001, limit=7, deadline=PATIENCE)
                found: list[Any] = []
                wait = 0.0
                while len(found) < 500:
                    asking = asyncio.ensure_future(follow.__anext__())
                    await asyncio.wait([asking], timeout=wait)
                    wait = 0.0 if wait else PATIENCE
                    if not asking.done():
                        asking.cancel()
                        await asyncio.wait([asking])
                    if not asking.cancelled():
                        found.append(asking.result())
                self.assertEqual(found, [[n, n] for n in range(500)])

        self.run_in(main())

    def test_watermark_sends_the_least(self) -> None:
        async def main() -> None:
            async with AsyncClient(self.server().port, timeout=PATIENCE) as it:
                await it.stream("S", ["a"])
                mark = AsyncWatermark(it, "S", ["a", "b"], late=2)
                self.assertEqual(await mark.promise("a", 100_000), -1)
                self.assertEqual(await mark.promise("b", 70_000), 70_000)
                with self.assertRaises(ClockBack):
                    await mark.promise("b", 69_999)
                self.assertEqual(await mark.saw("b", 70_100), 70_097)
                mark.join("c")
                self.assertEqual(mark.slowest, ("b", "c"))
                self.assertEqual(await mark.leave("c"), 70_097)
                await asyncio.gather(*[mark.promise("b", 70_100 + n) for n in range(50)])
                self.assertEqual(mark.closed, 70_149)
                with self.assertRaises(Refused):
                    await it.append("S", [(70_149, 1)])

        self.run_in(main())
