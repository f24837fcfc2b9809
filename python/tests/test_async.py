"""Tests clients whose calls are awaited: answers, exceptions, cancellation, retries, and many at a time in one event loop."""

import asyncio
import random
import unittest

from causal_judge import Recorder
from support import ClientCase, FolderCase, Refused, Unreachable, events_of, many, needs_program, verdicts_of

CLIENTS, KEYS, CALLS, SEEDS = 16, 5, 40, 3


async def answer(value=None, seconds=0.0):
    """A call that is answered later."""
    await asyncio.sleep(seconds)
    return value


async def raise_later(error):
    """A call that raises later."""
    await asyncio.sleep(0)
    raise error


class AsyncCase(ClientCase, unittest.IsolatedAsyncioTestCase):
    """The same, with a client whose calls are awaited."""

    def setUp(self):
        super().setUp()
        self.alice = self.recorder.async_client("alice")

    def endings(self):
        """The words of what the log has, without begins."""
        return [event[0] for event in super().endings()]


class Answers(AsyncCase):
    async def test_answers(self):
        self.assertEqual(await self.alice.write("k", "v", lambda: answer(7)), 7)
        self.assertEqual(await self.alice.read("k", lambda: answer("v")), "v")
        self.assertIsNone(await self.alice.read("l", answer))
        self.assertEqual(await self.alice.delete("k", lambda: answer(1), found=bool), 1)
        self.assertEqual(await self.alice.delete("k", lambda: answer(0), found=bool), 0)
        self.assertEqual(
            events_of(self.log),
            [
                ["begin", "alice", ["w", "k", "v"]],
                ["end", "alice", "ok"],
                ["begin", "alice", ["r", "k"]],
                ["end", "alice", "v"],
                ["begin", "alice", ["r", "l"]],
                ["end", "alice", None],
                ["begin", "alice", ["d", "k"]],
                ["end", "alice", "ok"],
                ["begin", "alice", ["d", "k"]],
                ["fail", "alice"],
            ],
        )

    async def test_exceptions(self):
        for error in (Refused(), Unreachable()):
            for call in (lambda: raise_later(error), lambda: raising(error)):
                for method, given in ((self.alice.write, ("k", "v")), (self.alice.read, ("k",)), (self.alice.delete, ("k",))):
                    with self.assertRaises(type(error)):
                        await method(*given, call)
        self.assertEqual(self.endings(), ["fail"] * 6 + ["lost"] * 6)

    async def test_no_value_and_no_awaitable(self):
        with self.assertRaisesRegex(TypeError, "bytes are no value"):
            await self.alice.read("k", lambda: answer(b"v"))
        with self.assertRaisesRegex(TypeError, "await"):
            await self.alice.read("k", lambda: "v")
        with self.assertRaises(TypeError):
            await self.alice.write("k", None, answer)
        self.assertEqual(self.endings(), ["lost", "lost"])

    async def test_second_call(self):
        first = asyncio.create_task(self.alice.write("k", 1, lambda: answer(None, 0.05)))
        await asyncio.sleep(0)
        with self.assertRaisesRegex(RuntimeError, "one at a time"):
            await self.alice.read("k", answer)
        await first
        self.assertEqual(self.endings(), ["end"])

    async def test_blocks(self):
        for block in range(2):
            async with self.recorder.async_client("bob") as bob:
                bob.begin_write("k", block)
            with self.assertRaisesRegex(RuntimeError, "its block was left"):
                await bob.read("k", answer)
        with self.recorder.async_client("bob") as bob:
            await bob.read("k", answer)
        self.assertEqual(self.endings(), ["lost", "lost", "end"])

    async def test_decorators(self):
        put = self.alice.writes(lambda key, value, more: answer((key, value, more)))
        get = self.alice.reads(lambda key, other="v": answer(other))
        drop = self.alice.deletes(lambda key: answer(key == "k"), found=bool)
        self.assertEqual((await put("k", 1, "more"), await get("k", other="w")), (("k", 1, "more"), "w"))
        self.assertEqual((await drop("k"), await drop("l")), (True, False))
        self.assertEqual(self.endings(), ["end"] * 3 + ["fail"])


def raising(error):
    """A call that raises before there is anything to await."""
    raise error


class Cancellation(AsyncCase):
    async def test_task(self):
        for method in (
            lambda: self.alice.write("k", 1, lambda: answer(None, 60)),
            lambda: self.alice.read("k", lambda: answer(None, 60)),
            lambda: self.alice.delete("k", lambda: answer(None, 60)),
            lambda: self.alice.retry("k", lambda value: answer(None, 60)),
        ):
            task = asyncio.create_task(method())
            await asyncio.sleep(0)
            task.cancel()
            with self.assertRaises(asyncio.CancelledError):
                await task
        self.assertEqual(self.endings(), ["lost"] * 4)

    async def test_time_limit(self):
        with self.assertRaises(asyncio.TimeoutError):
            await asyncio.wait_for(self.alice.write("k", 1, lambda: answer(None, 60)), 0.01)
        self.assertEqual(self.endings(), ["lost"])
        await self.alice.read("k", answer)

    async def test_cancelled_while_it_waits_for_the_next_try(self):
        task = asyncio.create_task(self.alice.retry("k", lambda value: raise_later(Unreachable()), pause=60))
        await asyncio.sleep(0.01)
        task.cancel()
        with self.assertRaises(asyncio.CancelledError):
            await task
        self.assertEqual(self.endings(), ["lost"])

    async def test_loop_that_ends(self):
        """A call that is pending when its loop is closed is lost; after the recorder it stays pending."""
        coroutine = self.alice.write("k", 1, lambda: answer(None, 60))
        coroutine.send(None)
        coroutine.close()
        self.assertEqual(self.endings(), ["lost"])
        coroutine = self.alice.write("k", 2, lambda: answer(None, 60))
        coroutine.send(None)
        self.recorder.close()
        coroutine.close()
        self.assertEqual(len(events_of(self.log)), 3)


class Retries(AsyncCase):
    async def test_retry(self):
        sent = []

        async def put(value):
            sent.append(value)
            if len(sent) < 3:
                raise Unreachable
            return "done"

        self.assertEqual(await self.alice.retry("k", put, pause=lambda number: number / 1000), "done")
        self.assertEqual(sent, ["alice.1", "alice.2", "alice.3"])
        self.assertEqual([event[2][2] for event in events_of(self.log)[::2]], sent)
        self.assertEqual(self.endings(), ["lost", "lost", "end"])

    async def test_failures(self):
        values = iter(range(9))
        with self.assertRaises(Refused):
            await self.alice.retry("k", lambda value: raise_later(Refused()), make_value=lambda: next(values))
        with self.assertRaises(Unreachable):
            await self.alice.retry("k", lambda value: raise_later(Unreachable()), make_value=lambda: next(values), tries=2)
        with self.assertRaisesRegex(ValueError, "once at least"):
            await self.alice.retry("k", answer, tries=0)
        self.assertEqual(self.endings(), ["fail", "lost", "lost"])
        self.assertEqual([event[2][2] for event in events_of(self.log)[::2]], [0, 1, 2])


class Memory:
    """One copy of some keys, whose answers come later, or not in time."""

    def __init__(self, rng):
        self.rng, self.values = rng, {}

    async def ask(self, action):
        await asyncio.sleep(self.rng.random() * 0.002)
        answered = action()
        await asyncio.sleep(60 if self.rng.random() < 0.05 else self.rng.random() * 0.002)
        return answered

    async def read(self, key):
        return await self.ask(lambda: self.values.get(key))

    async def write(self, key, value):
        await self.ask(lambda: self.values.__setitem__(key, value))

    async def delete(self, key):
        return await self.ask(lambda: self.values.pop(key, None))


async def calls(memory, client, rng):
    """The calls of a client, each of which has a limit of time."""
    for _ in range(CALLS):
        key, fate = rng.randrange(KEYS), rng.random()
        if fate < 0.5:
            call = client.read(key, lambda key=key: memory.read(key))
        elif fate < 0.6:
            call = client.delete(key, lambda key=key: memory.delete(key), found=lambda answer: answer is not None)
        else:
            call = client.retry(key, lambda value, key=key: asyncio.wait_for(memory.write(key, value), 0.2))
        try:
            await asyncio.wait_for(call, 0.5)
        except asyncio.TimeoutError:
            pass


async def run(path, seed):
    """Records a run of clients in one loop."""
    rng = random.Random(seed)
    memory = Memory(rng)
    with Recorder(path) as recorder:
        await asyncio.gather(*(calls(memory, recorder.async_client(f"client {number}"), rng) for number in range(CLIENTS)))


class ManyAtATime(FolderCase):
    @needs_program
    def test_correct_store(self):
        logs = [self.folder / f"{seed}.jsonl" for seed in range(many(SEEDS, 20 * SEEDS))]
        for seed, log in enumerate(logs):
            asyncio.run(run(log, seed))
            self.assertGreaterEqual(len(events_of(log)), 2 * CLIENTS * CALLS)
            self.assertIn("lost", [event[0] for event in events_of(log)])
        for verdict in verdicts_of(logs):
            self.assertTrue(verdict.meets(), str(verdict))


if __name__ == "__main__":
    unittest.main()
