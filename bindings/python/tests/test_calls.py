"""Tests of the package `rr`: exchanges, each code that can come, and how structs are laid out."""
import contextlib
import io
import os
import pathlib
import subprocess
import tempfile
import textwrap
import threading
import time
import unittest
import unittest.mock

import layout
import rr
from rr import _errors, _library

HUGE = 2**62
MOST = 2**64 - 1
BINDINGS = pathlib.Path(__file__).resolve().parents[2]


def small_limits(**limits):
    """Limits of one client and one server, with two of all else and no flags."""
    names = [name for name, _ in rr.Limits._fields_]
    return rr.Limits(**{**dict(zip(names, (1, 1, 2, 2, 2, 2, 1, 1, False, False, False))), **limits})


class TestDocument(unittest.TestCase):
    def test_the_example_runs(self):
        example = textwrap.dedent("".join(it for it in rr.__doc__.splitlines(True) if it.startswith("    ") or it == "\n"))
        with contextlib.redirect_stdout(io.StringIO()) as printed:
            exec(compile(example, "the example", "exec"), {})
        self.assertEqual(printed.getvalue(), "b'ASK'\n")


class TestExchange(unittest.TestCase):
    def setUp(self):
        self.hub = rr.Hub(node_id=7)
        self.client, self.server = self.hub.client(16), self.hub.server(16)

    def tearDown(self):
        self.hub.close()

    def test_a_request_is_answered(self):
        with self.client.send(b"ask\0", user_header=b"header") as pending:
            self.assertEqual(pending.number_of_server_connections, 1)
            with self.server.receive() as active:
                self.assertEqual((active.payload, active.user_header), (b"ask\0", b"header".ljust(16, b"\0")))
                self.assertEqual(active.origin, self.client.number)
                active.send(b"answer")
            with pending.receive() as response:
                self.assertEqual((response.payload, response.user_header), (b"answer", bytes(16)))
                self.assertEqual(response.origin, self.server.number)
                self.assertEqual(response.header, rr.Header(self.server.number, 0, 6, 7, True))
            self.assertIsNone(pending.receive())
            self.assertEqual(pending.header, rr.Header(self.client.number, 0, 4, 7, False))
        self.assertIsNone(self.server.receive())

    def test_responses_stream_until_the_hint(self):
        pending = self.client.send(b"stream")
        active = self.server.receive()
        taken = []
        for turn in range(100):
            if active.has_disconnect_hint:
                break
            active.send(b"%d" % turn)
            for response in pending:
                with response:
                    taken.append(response.payload)
            if turn == 9:
                pending.set_disconnect_hint()
        self.assertEqual(taken, [b"%d" % turn for turn in range(10)])
        self.assertTrue(pending.is_connected and active.is_connected)
        active.release()
        self.assertFalse(pending.is_connected)

    def test_a_message_is_written_byte_by_byte(self):
        request = self.client.loan_uninit(2)
        self.assertEqual(request.kind, rr.Kind.REQUEST_MUT_UNINIT)
        self.assertTrue(request.push(1) and request.push(2))
        self.assertFalse(request.push(3))
        request = request.assume_init()
        self.assertTrue(request.set(1, 9))
        self.assertFalse(request.set(2, 9))
        request.user_header = bytes(range(16))
        self.assertTrue(request.is_deliverable)
        self.assertEqual((request.kind, request.payload), (rr.Kind.REQUEST_MUT, b"\1\x09"))
        pending = request.send()
        self.assertEqual((pending.kind, pending.payload, pending.user_header), (rr.Kind.PENDING_RESPONSE, b"\1\x09", bytes(range(16))))
        [active] = self.server
        response = active.loan_uninit(3).fill(5)
        self.assertEqual((response.kind, response.payload), (rr.Kind.RESPONSE_MUT, b"\5\5\5"))
        response.send()
        self.assertTrue(pending.has_response)
        self.assertEqual([it.payload for it in pending], [b"\5\5\5"])
        self.assertFalse(pending.has_response or self.server.has_requests)

    def test_numbers_out_of_range_are_refused(self):
        request = self.client.loan_uninit(1)
        for number, call in (
            (256, request.push),
            (256, request.fill),
            (256, lambda it: request.set(0, it)),
            (2**64 + 9, lambda it: request.set(it, 9)),
            (2**64 + 3, self.client.loan_uninit),
            (2**64 + 7, lambda it: rr.Hub(node_id=it)),
            (2**64 + 16, self.hub.client),
            (2**64 + 1, lambda it: self.hub.client(16, preallocated_requests=it)),
            (2**32 + 1, lambda it: self.hub.client(16, backpressure_strategy=it)),
            (2**32 + 1, lambda it: self.hub.server(16, allocation_strategy=it)),
            (2**64 + 1, lambda it: self.hub.server(16, max_loaned_responses_per_request=it)),
            (2**64 + 1, lambda it: rr.Limits(max_servers=it)),
        ):
            self.assertRaises(ValueError, call, number)
            self.assertRaises(ValueError, call, -1)
            self.assertRaises(TypeError, call, 1.0)
        self.assertEqual(request.payload, b"")

    def test_limits_are_named_and_flags_are_true_or_false(self):
        self.assertRaises(TypeError, rr.Limits, max_clinets=1)
        self.assertRaises(TypeError, rr.Limits, enable_fire_and_forget_requests="no")
        limits = rr.Limits()
        with self.assertRaises(AttributeError):
            limits.max_clinets = 1
        with self.assertRaises(ValueError):
            limits.max_clients = 2**64

    def test_payloads_are_bytes(self):
        request = self.client.loan_uninit(5)
        for call in (self.client.send, self.client.loan, request.write_from_slice):
            self.assertRaises(TypeError, call, 5)
        with self.assertRaises(TypeError):
            request.user_header = 5
        with self.assertRaises(ValueError):
            request.user_header = bytes(17)
        self.assertEqual(self.client.send(memoryview(b"abc")).payload, b"abc")

    def test_ports_tell_their_settings(self):
        self.client.update_connections()
        self.assertEqual(self.client.backpressure_strategy, rr.BackpressureStrategy.DISCARD_DATA)
        self.assertEqual((self.client.initial_max_slice_len, self.server.initial_max_slice_len), (16, 16))
        self.assertEqual((self.client.kind, self.server.kind), (rr.Kind.CLIENT, rr.Kind.SERVER))

    def test_slots_grow(self):
        other = self.hub.client(1, allocation_strategy=rr.AllocationStrategy.POWER_OF_TWO)
        request = other.loan(bytes(300))
        self.assertTrue(request.set(299, 7))
        request.send()
        self.assertEqual(self.server.receive().payload, bytes(299) + b"\7")


class TestThreads(unittest.TestCase):
    def test_two_threads_share_a_hub(self):
        turns = 200
        with rr.Hub() as hub, hub.client(8) as client, hub.server(8) as server:

            def serve():
                answered = 0
                while answered < turns:
                    time.sleep(0)
                    for active in server:
                        with active:
                            active.send(active.payload[::-1])
                            answered += 1

            thread = threading.Thread(target=serve)
            thread.start()
            for turn in range(turns):
                payload = turn.to_bytes(8, "little")
                with client.send(payload) as pending:
                    while not pending.has_response:
                        time.sleep(0)
                    self.assertEqual([it.payload for it in released(pending)], [payload[::-1]])
            thread.join()


def released(pending):
    """Gives the responses that are queued, and releases each."""
    for response in pending:
        with response:
            yield response


class TestRelease(unittest.TestCase):
    def test_the_end_of_a_with_releases(self):
        with rr.Hub(small_limits()) as hub:
            with hub.client(8) as client, hub.server(8) as server:
                with client.send(b"1") as pending:
                    pass
                self.assertRaises(rr.Unknown, pending.receive)
                with client.loan(b"2") as request:
                    with request.send() as pending:
                        self.assertEqual(pending.payload, b"2")
                self.assertIsNone(server.receive())
                with client.send(b"3"), server.receive() as active, active.loan(b"4"):
                    self.assertEqual(active.payload, b"3")
                self.assertRaises(rr.Unknown, active.send, b"5")
            self.assertRaises(rr.Unknown, client.loan, b"6")
            self.assertEqual(hub.client(8).number, server.number + 6)
        self.assertTrue(hub.is_closed)

    def test_a_sent_message_is_released_no_more(self):
        with rr.Hub(small_limits()) as hub, hub.client(8) as client, hub.server(8) as server:
            uninit = client.loan_uninit(1)
            request = uninit.fill(7)
            with request.send() as pending:
                for message in (uninit, request):
                    self.assertRaises(rr.Unknown, message.release)
                self.assertRaises(rr.Unknown, request.send)
                self.assertEqual(server.receive().payload, b"\7")
                self.assertTrue(pending.is_connected)

    def test_the_end_of_a_with_releases_what_became_of_a_message(self):
        with rr.Hub(small_limits()) as hub, hub.client(8) as client:
            for _ in range(3):
                with self.assertRaises(KeyError), client.loan_uninit(3) as message:
                    message.fill(0)
                    raise KeyError
            with client.loan_uninit(1) as message:
                pending = message.fill(1).send()
            self.assertEqual(pending.payload, b"\1")

    def test_a_refused_user_header_leaves_nothing_on_loan(self):
        with rr.Hub(small_limits()) as hub, hub.client(8) as client:
            for _ in range(3):
                self.assertRaises(ValueError, client.send, b"1", user_header=bytes(17))
            self.assertEqual(client.send(b"2", user_header=bytes(16)).payload, b"2")

    def test_an_interrupted_close_drops_once(self):
        hub, drop, drops = rr.Hub(), _library.LIBRARY.rr_hub_drop, []

        def interrupted(at):
            drop(at)
            drops.append(at)
            raise KeyboardInterrupt

        with unittest.mock.patch.object(_library.LIBRARY, "rr_hub_drop", interrupted):
            self.assertRaises(KeyboardInterrupt, hub.close)
            hub.close()
        self.assertEqual(len(drops), 1)
        self.assertTrue(hub.is_closed)

    def test_nothing_is_used_after_its_hub_was_closed(self):
        hub = rr.Hub()
        with hub.client(8) as client, client.send(b"ask") as pending:
            hub.close()
            self.assertRaises(rr.HubClosed, pending.receive)
            self.assertRaises(rr.HubClosed, client.send, b"ask")
        hub.close()


class TestCodes(unittest.TestCase):
    came = set()

    @classmethod
    def tearDownClass(cls):
        # These need that 2^62 numbers were given, or that memory is refused.
        tags = {"ClientCreateUnableToCreatePortTag", "ServerCreateUnableToCreatePortTag"}
        far = {"NumbersExhausted", *tags, "HubCreateOutOfMemory"}
        missing = {error.__name__ for error in _errors.ERRORS.values()} - far - cls.came
        if missing or cls.came & far:
            raise AssertionError(f"codes that did not come: {missing}")

    def refused(self, name, call, *words, **settings):
        """Checks that a call raises the error of this name."""
        with self.assertRaises(rr.RrError) as raised:
            call(*words, **settings)
        self.assertEqual(type(raised.exception).__name__, name)
        self.assertIs(type(raised.exception), getattr(rr, name))
        self.came.add(name)

    def ports(self, **limits):
        """Returns a hub with a client and a server."""
        hub = rr.Hub(small_limits(**limits))
        self.addCleanup(hub.close)
        return hub, hub.client(8), hub.server(8)

    def test_hub(self):
        self.refused("HubCreateZeroLimit", rr.Hub, small_limits(max_servers=0))
        self.refused("HubCreateLimitsTooLarge", rr.Hub, small_limits(max_servers=MOST))

    def test_ports(self):
        with rr.Hub(small_limits()) as hub:
            for create, name in ((hub.client, "ClientCreate"), (hub.server, "ServerCreate")):
                self.refused("InvalidSetting", create, 8, backpressure_strategy=2)
                self.refused("InvalidSetting", create, 8, allocation_strategy=3)
                self.refused(f"{name}UnableToCreateDataSegment", create, HUGE)
                port = create(8)
                self.refused(f"{name}ExceedsMaxSupported{type(port).__name__}s", create, 8)
                self.assertEqual(port.backpressure_strategy, rr.BackpressureStrategy.DISCARD_DATA)

    def test_ids(self):
        _, client, server = self.ports()
        uninit = client.loan_uninit(2)
        self.refused("Incomplete", uninit.assume_init)
        self.refused("WrongLength", uninit.write_from_slice, b"abc")
        self.assertEqual(uninit.payload, b"")
        request = uninit.write_from_slice(b"ab")
        self.refused("WrongKind", uninit.push, 1)
        pending = request.send()
        self.assertIsNone(pending.receive())
        self.assertEqual(server.receive().payload, b"ab")
        pending.release()
        self.refused("Unknown", pending.release)
        self.refused("Unknown", lambda: request.payload)

    def test_loans(self):
        hub, client, _ = self.ports()
        self.refused("LoanExceedsMaxLoanSize", client.loan, bytes(9))
        loans = [client.loan_uninit(8) for _ in range(2)]
        self.refused("LoanExceedsMaxLoans", client.loan, b"third")
        loans[0].release()
        self.assertEqual(client.loan(b"third").number, loans[1].number + 1)
        client.release()
        self.refused("Unknown", client.loan_uninit, 1)

        # A request on loan keeps its client connected.
        self.refused("ClientCreateExceedsMaxSupportedClients", hub.client, 8)

    def test_pool(self):
        with rr.Hub(small_limits()) as hub, hub.client(8, preallocated_requests=1) as client, client.send(b"1") as pending:
            self.refused("LoanOutOfMemory", client.send, b"2")
            pending.release()
            self.assertEqual(client.send(b"3").payload, b"3")

    def test_sends(self):
        hub, client, server = self.ports()
        pending = [client.send(b"1"), client.send(b"2")]
        third = client.loan(b"3")
        self.refused("SendExceedsMaxActiveRequests", third.send)
        self.refused("Unknown", third.release)
        self.assertEqual([it.payload for it in server], [b"1", b"2"])
        self.assertEqual([it.payload for it in pending], [b"1", b"2"])
        self.assertFalse(hub.is_closed)

    def test_full_queue(self):
        with rr.Hub(small_limits()) as hub, hub.server(8) as server:
            client = hub.client(8, backpressure_strategy=rr.BackpressureStrategy.RETRY_UNTIL_DELIVERED)
            for payload in (b"1", b"2"):
                client.send(payload).release()
            self.assertFalse(client.loan(b"3").is_deliverable)
            self.refused("SendUnableToDeliver", client.send, b"4")
            self.assertIsNone(server.receive())
            self.assertEqual(client.send(b"5").number_of_server_connections, 1)

    def test_borrows(self):
        _, client, server = self.ports(max_borrowed_responses_per_pending_response=1)
        pending = client.send(b"ask")
        active = server.receive()
        active.send(b"1")
        active.send(b"2")
        first = pending.receive()
        self.refused("ReceiveExceedsMaxBorrows", pending.receive)
        self.assertTrue(pending.has_response)
        first.release()
        self.assertEqual(pending.receive().payload, b"2")


class TestLayout(unittest.TestCase):
    def test_structs_and_constants_are_those_of_the_header(self):
        with tempfile.TemporaryDirectory() as room:
            program = os.path.join(room, "layout")
            source, include = BINDINGS / "c" / "tests" / "layout.c", BINDINGS / "c" / "include"
            subprocess.run(["cc", "-std=c11", f"-I{include}", str(source), "-o", program], check=True)
            told = subprocess.run([program], check=True, capture_output=True, text=True).stdout
        self.assertEqual(sorted(layout.lines()), sorted(told.splitlines()))


if __name__ == "__main__":
    unittest.main()
