"""Tests of threads and tasks that wait."""
import asyncio
import threading
import time
import unittest

import rr

# A wait that nothing should end by itself: a test that waits so long has failed.
LONG = 60


def server_of(hub, **settings):
    return hub.server(8, backpressure_strategy=rr.BackpressureStrategy.RETRY_UNTIL_DELIVERED, **settings)


class TestThreads(unittest.TestCase):
    def setUp(self):
        self.hub = rr.Hub(rr.Limits(enable_safe_overflow_for_responses=False))
        self.addCleanup(self.hub.close)
        self.client, self.server = self.hub.client(8), server_of(self.hub)

    def started(self, target, *words):
        thread = threading.Thread(target=target, args=words)
        thread.start()
        self.addCleanup(thread.join)
        return thread

    def test_threads_exchange(self):
        def serve():
            for _ in range(200):
                with self.server.receive(timeout=LONG) as active:
                    active.send(active.payload[::-1])

        self.started(serve)
        for turn in range(200):
            with self.client.send(turn.to_bytes(8, "little")) as pending:
                with pending.receive(timeout=None) as response:
                    self.assertEqual(response.payload, turn.to_bytes(8, "big"))
                self.assertIsNone(pending.receive(timeout=None))

    def test_a_timeout_ends_a_wait(self):
        begun = time.monotonic()
        self.assertIsNone(self.server.receive(timeout=0.05))
        self.assertGreaterEqual(time.monotonic() - begun, 0.05)
        pending = self.client.send(b"ask")
        self.assertIsNone(pending.receive(timeout=0.05))
        self.assertIsNone(pending.receive(timeout=-1))
        self.assertEqual(self.server.receive(timeout=1e12).payload, b"ask")

    def test_the_last_server_ends_a_wait(self):
        pending = self.client.send(b"ask")
        active = self.server.receive()
        self.started(lambda: (time.sleep(0.02), active.release()))
        self.assertIsNone(pending.receive(timeout=None))
        other = self.client.send(b"ask")
        self.started(lambda: (time.sleep(0.02), self.server.release()))
        self.assertIsNone(other.receive(timeout=None))

    def test_a_closed_hub_ends_a_wait(self):
        raised = []

        def wait():
            try:
                self.server.receive(timeout=LONG)
            except rr.HubClosed as error:
                raised.append(error)

        thread = self.started(wait)
        time.sleep(0.02)
        self.hub.close()
        thread.join()
        self.assertEqual(len(raised), 1)
        self.assertRaises(rr.HubClosed, self.server.receive, timeout=LONG)

    def test_a_send_waits_for_room(self):
        pending = self.client.send(b"ask")
        active = self.server.receive()
        for _ in range(2):
            active.send(b"full")
        self.assertRaises(rr.SendUnableToDeliver, active.send, b"3", timeout=0.05)
        self.started(lambda: (time.sleep(0.02), pending.receive().release()))
        active.send(b"third", timeout=LONG)
        self.assertEqual([it.payload for it in pending], [b"full", b"third"])
        loaned = active.loan(b"last")
        loaned.send(timeout=LONG)
        self.assertRaises(rr.Unknown, loaned.send, timeout=LONG)

    def test_a_receive_of_nothing_makes_room(self):
        limits = dict(max_active_requests_per_client=2, enable_safe_overflow_for_requests=False, enable_fire_and_forget_requests=False)
        begun = time.monotonic()
        with rr.Hub(rr.Limits(**limits)) as hub, server_of(hub) as server:
            client = hub.client(8, backpressure_strategy=rr.BackpressureStrategy.RETRY_UNTIL_DELIVERED)
            for receive in (server.receive, lambda: None):
                for _ in range(2):
                    client.send(b"nobody").release()
                thread = self.started(lambda: client.send(b"wait", timeout=LONG).receive(timeout=LONG))
                time.sleep(0.02)
                self.assertIsNone(receive())
                with server.receive(timeout=LONG) as active:
                    self.assertEqual(active.payload, b"wait")
                thread.join()
        self.assertLess(time.monotonic() - begun, LONG)


class TestTasks(unittest.IsolatedAsyncioTestCase):
    async def asyncSetUp(self):
        self.hub = rr.Hub(rr.Limits(enable_safe_overflow_for_responses=False))
        self.addCleanup(self.hub.close)
        self.client, self.server = self.hub.client(8), server_of(self.hub)

    async def test_a_task_answers(self):
        async def serve():
            async for active in self.server:
                with active:
                    active.send(active.payload.upper())

        task = asyncio.create_task(serve())
        for word in (b"one", b"two"):
            with self.client.send(word) as pending:
                answers = [it.payload async for it in pending]
            self.assertEqual(answers, [word.upper()])
        self.hub.close()
        await asyncio.wait_for(task, LONG)

    async def test_a_thread_wakes_a_task(self):
        def serve():
            with self.server.receive(timeout=LONG) as active:
                for turn in range(20):
                    active.send(b"%d" % turn, timeout=LONG)

        thread = threading.Thread(target=serve)
        with self.client.send(b"count") as pending:
            thread.start()
            counted = []
            async for response in pending:
                with response:
                    counted.append(int(response.payload))
        thread.join()
        self.assertEqual(counted, list(range(20)))

    async def test_a_cancelled_task_has_received_nothing(self):
        with self.assertRaises(asyncio.TimeoutError):
            await asyncio.wait_for(self.server.receive_async(), 0.02)
        self.assertEqual(self.hub._waits._tasks, [])
        pending = self.client.send(b"ask")
        active = await self.server.receive_async()
        self.assertEqual(active.payload, b"ask")
        active.release()
        self.assertIsNone(await pending.receive_async())

    async def test_tasks_wait_for_one_server(self):
        tasks = [asyncio.create_task(self.server.receive_async()) for _ in range(3)]
        await asyncio.sleep(0)
        pending = [self.client.send(b"%d" % turn) for turn in range(3)]
        received = await asyncio.wait_for(asyncio.gather(*tasks), LONG)
        self.assertEqual(sorted(it.payload for it in received), [it.payload for it in pending])


if __name__ == "__main__":
    unittest.main()
