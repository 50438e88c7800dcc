"""Tests of typed payloads, and of views of payloads where they lie."""
import array
import ctypes
import unittest

import rr

try:
    import numpy
except ImportError:
    numpy = None


class Point(ctypes.Structure):
    _fields_ = [("x", ctypes.c_double), ("y", ctypes.c_double)]


class TestPayloads(unittest.TestCase):
    def setUp(self):
        self.hub = rr.Hub()
        self.addCleanup(self.hub.close)
        self.client, self.server = self.hub.client(64), self.hub.server(64)

    def test_a_structure_is_sent_and_copied(self):
        pending = self.client.send(Point(1, 2))
        active = self.server.receive()
        asked = active.payload_as(Point)
        self.assertEqual((asked.x, asked.y), (1, 2))
        active.send(Point(asked.y, asked.x))
        active.release()
        response = pending.receive()
        answer = response.payload_as(Point)
        response.release()
        self.assertEqual((answer.x, answer.y), (2, 1))
        self.assertRaises(rr.WrongLength, pending.payload_as, ctypes.c_double)

    def test_arrays_are_viewed_where_they_lie(self):
        numbers = array.array("d", [1, 2, 3])
        pending = self.client.send(numbers)
        active = self.server.receive()
        view, again = active.payload_as("d"), pending.payload_as("d")
        self.assertEqual((view.tolist(), view.format, view.readonly), ([1, 2, 3], "d", True))
        self.assertEqual(ctypes.addressof(view.obj), ctypes.addressof(again.obj))
        self.assertEqual(array.array("d", again), numbers)

    def test_a_message_is_written_in_place(self):
        request = self.client.loan_in_place(16)
        point = Point.from_buffer(request.view)
        point.x, point.y = 3, 4
        self.assertRaises(rr.ViewInUse, request.send)
        del point
        request.view[0:1] = b"\1"
        pending = request.send()
        self.assertEqual(pending.payload[:1] + pending.payload[8:], b"\1" + bytes(Point(3, 4))[8:])
        with self.assertRaises(TypeError):
            pending.view[0] = 1

    def test_a_view_keeps_its_message(self):
        pending = self.client.send(b"ask")
        active = self.server.receive()
        part = active.view[1:]
        self.assertRaises(rr.ViewInUse, active.release)
        self.assertRaises(rr.ViewInUse, self.hub.close)
        with self.assertRaises(rr.ViewInUse), active:
            pass
        with self.assertRaises(KeyError), active:
            raise KeyError
        self.assertEqual((bytes(part), active.payload, pending.payload), (b"sk", b"ask", b"ask"))
        del part
        active.release()
        self.assertRaises(rr.Unknown, lambda: active.view)

    def test_a_view_keeps_its_hub(self):
        hub = rr.Hub()
        client = hub.client(8)
        view = client.send(b"ask").view
        del hub, client
        self.assertEqual(bytes(view), b"ask")

    def test_an_exception_goes_before_a_view(self):
        with self.assertRaises(KeyError) as raised, rr.Hub() as hub:
            view = hub.client(8).send(b"ask").view
            raise KeyError
        self.assertIsNone(raised.exception.__context__)
        self.assertEqual((bytes(view), hub.is_closed), (b"ask", False))
        del view
        hub.close()

    def test_nothing_has_no_place(self):
        pending = self.client.send(b"")
        self.assertEqual((pending.payload, bytes(pending.view), pending.payload_as("d").tolist()), (b"", b"", []))
        pending.release()

    @unittest.skipUnless(numpy, "NumPy is not installed")
    def test_numpy_arrays_are_sent_and_viewed(self):
        pending = self.client.send(numpy.arange(6, dtype="f4").reshape(2, 3)[:, 1:])
        active = self.server.receive()
        asked = active.payload_as(numpy.dtype("f4"))
        self.assertEqual((asked.tolist(), asked.flags.writeable), ([1, 2, 4, 5], False))
        response = active.loan_in_place(16)
        response.payload_as(numpy.float64)[:] = asked[:2] * 2
        response.send()
        self.assertRaises(rr.ViewInUse, active.release)
        del asked
        active.release()
        self.assertEqual(pending.receive().payload_as(numpy.float64).tolist(), [2, 4])


if __name__ == "__main__":
    unittest.main()
