"""Ports and their messages."""
from __future__ import annotations

import ctypes
from typing import TYPE_CHECKING, Any, AsyncIterator, Generic, Iterator, Optional, TypeVar

from rr import _library
from rr._errors import HubClosed, check
from rr._handles import Message, Named, Unsent, bytes_of
from rr._library import BackpressureStrategy

if TYPE_CHECKING:
    from typing_extensions import Buffer

Written = TypeVar("Written", bound="RequestMut | ResponseMut")
Loaned = TypeVar("Loaned", bound="_Uninit[Any]")
Received = TypeVar("Received", bound=Message)


class _Uninit(Unsent, Generic[Written]):
    """A message that is being written. The call that completes it returns the object that can be sent; a release of either releases both."""

    _written_type: type[Written]

    def push(self, byte: int) -> bool:
        """Appends a byte. Returns whether there was room for it."""
        return bool(self._asked("push", ctypes.c_bool, _library.whole(byte, 8, "a byte")))

    def fill(self, byte: int) -> Written:
        """Makes each byte this one. Returns the message, which can be sent."""
        return self._completed("fill", _library.whole(byte, 8, "a byte"))

    def write_from_slice(self, payload: Buffer) -> Written:
        """Copies these bytes. Returns the message, which can be sent. Raises `WrongLength`."""
        written = bytes_of(payload)
        return self._completed("write_from_slice", written, len(written))

    def assume_init(self) -> Written:
        """Returns the message, which can be sent, if all its bytes were pushed. Raises `Incomplete`."""
        return self._completed("assume_init")

    def _completed(self, name: str, *arguments: Any) -> Written:
        """Makes the call that completes it, and returns what it goes by then."""
        self._call(name, *arguments)
        return self._written_type(self._hub, self._id, self._life)


class _Sendable(Unsent):
    """A message that can be sent. Its `view` may be written."""

    _place = "payload_mut"

    @property
    def is_deliverable(self) -> bool:
        """Whether a send of it would be refused by no full queue."""
        return bool(self._asked("is_deliverable", ctypes.c_bool))

    def _is_ready(self) -> Optional[bool]:
        """Returns None if a send would be refused by a full queue alone."""
        return None if self._asked("send_refusal", ctypes.c_uint32) == _library.UNABLE_TO_DELIVER else True

    def _sent(self, timeout: Optional[float]) -> None:
        """Sends it, after it has waited for room, or releases it if that is refused."""
        servers = ctypes.c_size_t()
        with self._hub._lock:
            self._must_not_be_viewed()
            if timeout != 0:
                self._hub._waits.until_room(self._is_ready, timeout)
                self._must_not_be_viewed()
            was_over, self._life.is_over = self._life.is_over, True
            code = _library.UNKNOWN if was_over else self._hub._code("send", ctypes.byref(self._id), ctypes.byref(servers))
        check(code)


class RequestMut(_Sendable):
    """A request that can be sent."""

    def send(self, timeout: Optional[float] = 0) -> PendingResponse:
        """Sends it to all connected servers, and returns its `PendingResponse`. If it is refused, the request is released. At a full queue
        it waits for room first, at most so many seconds (None: endlessly), if the client's strategy is to retry.

        Raises `SendUnableToDeliver`, `SendExceedsMaxActiveRequests`, `ViewInUse`, and `Unknown` if it was sent or released before.
        """
        self._sent(timeout)
        return PendingResponse(self._hub, self._id)


class ResponseMut(_Sendable):
    """A response that can be sent."""

    def send(self, timeout: Optional[float] = 0) -> None:
        """Sends it. If it is refused, the response is released. At a full queue it waits for room first, at most so many seconds (None:
        endlessly), if the server's strategy is to retry.

        Raises `SendUnableToDeliver`, `ViewInUse`, and `Unknown` if it was sent or released before.
        """
        self._sent(timeout)


class RequestMutUninit(_Uninit[RequestMut]):
    """A request that is being written."""

    _written_type = RequestMut


class ResponseMutUninit(_Uninit[ResponseMut]):
    """A response that is being written."""

    _written_type = ResponseMut


class _Receiver(Named, Generic[Received]):
    """What receives messages. Iterating over it receives those that are queued; `async for` waits for each."""

    _received_type: type[Received]

    def receive(self, timeout: Optional[float] = 0) -> Optional[Received]:
        """Receives the next message. Returns None if none is queued, or, with a timeout, if none came in so many seconds (None: endlessly).
        A `PendingResponse` returns None too when none can come any more.

        Raises `ReceiveExceedsMaxBorrows`, `NumbersExhausted`, and `HubClosed` also if the hub is closed meanwhile.
        """
        if timeout == 0:
            return self._attempt()
        return self._hub._waits.until_message(self._attempt_or_end, timeout) or None

    async def receive_async(self) -> Optional[Received]:
        """Waits for the next message in a task. Returns and raises what `receive(timeout=None)` does."""
        return await self._hub._waits.until_message_async(self._attempt_or_end) or None

    def __iter__(self) -> Iterator[Received]:
        return iter(self.receive, None)

    async def __aiter__(self) -> AsyncIterator[Received]:
        """Gives each message that comes, until none can come any more or the hub is closed."""
        try:
            while received := await self.receive_async():
                yield received
        except HubClosed:
            return

    def _attempt(self) -> Optional[Received]:
        """Receives once."""
        received = _library.Id()
        code = self._code("receive", ctypes.byref(received))
        if code == _library.NOTHING:
            return None
        check(code)
        return self._received_type(self._hub, received)

    def _attempt_or_end(self) -> Any:
        """Receives once. Returns False if none can come any more."""
        received = self._attempt()
        return received if received is not None or self._may_receive() else False

    def _may_receive(self) -> bool:
        return True


class Response(Message):
    """A response that was received."""

    @property
    def origin(self) -> int:
        """The number of the server that it came from."""
        return int(self._asked("origin", ctypes.c_uint64))


class PendingResponse(_Receiver[Response], Message):
    """A request that was sent. It receives the responses of all servers. Its release tells them that nobody waits for more.

    A wait ends without a response when every server that was connected at the send has released the request or left. A server whose full
    queue dropped the request counts until it leaves: a timeout bounds such a wait.
    """

    _received_type = Response

    def _may_receive(self) -> bool:
        return self.is_connected

    @property
    def has_response(self) -> bool:
        """Whether a response is queued."""
        return bool(self._asked("has_entries", ctypes.c_bool))

    @property
    def is_connected(self) -> bool:
        """Whether it waits for a server."""
        return bool(self._asked("is_connected", ctypes.c_bool))

    @property
    def number_of_server_connections(self) -> int:
        """How many queues took the request as it was sent."""
        return int(self._asked("number_of_server_connections", ctypes.c_size_t))

    def set_disconnect_hint(self) -> None:
        """Tells the servers that the client wants no more responses."""
        self._call("set_disconnect_hint")


class _Sender(Named, Generic[Loaned, Written]):
    """What messages are loaned from."""

    _loaned_type: type[Loaned]

    def loan_uninit(self, length: int) -> Loaned:
        """Loans a message of so many bytes, to be written.

        Raises `LoanOutOfMemory`, `LoanExceedsMaxLoans`, `LoanExceedsMaxLoanSize`, `NumbersExhausted`.
        """
        loaned = self._asked("loan_slice_uninit", _library.Id, _library.whole(length, 64, "length"))
        return self._loaned_type(self._hub, loaned)

    def loan(self, payload: Buffer) -> Written:
        """Loans a message with these bytes, which can be sent. Raises what `loan_uninit` does."""
        written = bytes_of(payload)
        message: Written = self.loan_uninit(len(written)).write_from_slice(written)
        return message

    def loan_in_place(self, length: int) -> Written:
        """Loans a message of so many bytes 0, which can be sent, to be written by its `view`. Raises what `loan_uninit` does."""
        message: Written = self.loan_uninit(length).fill(0)
        return message

    def _sent_copy(self, payload: bytes) -> _library.Id:
        """Sends these bytes by one call, and returns the message's id."""
        message, servers = _library.Id(), ctypes.c_size_t()
        self._call("send_copy", payload, len(payload), ctypes.byref(message), ctypes.byref(servers))
        return message


class ActiveRequest(_Sender[ResponseMutUninit, ResponseMut], Message):
    """A request that a server received. Its release tells the client that this server sends no more responses."""

    _loaned_type = ResponseMutUninit

    def send(self, payload: Buffer, user_header: Optional[Buffer] = None, timeout: Optional[float] = 0) -> None:
        """Sends these bytes. Raises what `loan_uninit` and the response's `send` do."""
        if user_header is None and timeout == 0:
            self._sent_copy(bytes_of(payload))
            return
        with self.loan(payload) as message:
            if user_header is not None:
                message.user_header = user_header
            message.send(timeout)

    @property
    def origin(self) -> int:
        """The number of the client that it came from."""
        return int(self._asked("origin", ctypes.c_uint64))

    @property
    def is_connected(self) -> bool:
        """Whether its client waits for responses."""
        return bool(self._asked("is_connected", ctypes.c_bool))

    @property
    def has_disconnect_hint(self) -> bool:
        """Whether its client set the disconnect hint."""
        return bool(self._asked("has_disconnect_hint", ctypes.c_bool))


class _Port(Named):
    """A client or a server."""

    @property
    def backpressure_strategy(self) -> BackpressureStrategy:
        """What its sends do at a full queue."""
        return BackpressureStrategy(self._asked("backpressure_strategy", ctypes.c_uint32))

    @property
    def initial_max_slice_len(self) -> int:
        """For how many bytes each of its slots has room from the start."""
        return int(self._asked("initial_max_slice_len", ctypes.c_size_t))

    def update_connections(self) -> None:
        """Changes nothing: ports are connected from the creation of the later one on."""
        self._call("update_connections")


class Client(_Sender[RequestMutUninit, RequestMut], _Port):
    """Sends requests to all connected servers."""

    _loaned_type = RequestMutUninit

    def send(self, payload: Buffer, user_header: Optional[Buffer] = None, timeout: Optional[float] = 0) -> PendingResponse:
        """Sends these bytes, and returns the `PendingResponse`. Raises what `loan_uninit` and the request's `send` do."""
        if user_header is None and timeout == 0:
            return PendingResponse(self._hub, self._sent_copy(bytes_of(payload)))
        with self.loan(payload) as message:
            if user_header is not None:
                message.user_header = user_header
            return message.send(timeout)


class Server(_Receiver[ActiveRequest], _Port):
    """Receives requests of all connected clients."""

    _received_type = ActiveRequest

    @property
    def has_requests(self) -> bool:
        """Whether a request is queued."""
        return bool(self._asked("has_entries", ctypes.c_bool))
