"""What ports and messages have in common: each has an id, is released once, and lends its payload."""
from __future__ import annotations

import ctypes
import weakref
from types import TracebackType
from typing import TYPE_CHECKING, Any, NamedTuple, Optional, TypeVar, overload

from rr import _library
from rr._errors import ViewInUse, WrongLength, check
from rr._library import Kind

if TYPE_CHECKING:
    from typing_extensions import Buffer, Self

    from rr._hub import Hub

_CData: Any = ctypes.Structure.__mro__[1]
T = TypeVar("T")


class Header(NamedTuple):
    """The header of a message."""

    port_id: int  # the client that loaned the request, or the server that loaned the response
    request_id: int  # how many requests that client had loaned before; of a response, that of the request it answers
    number_of_elements: int  # bytes that the payload was asked to have
    node_id: int  # what the hub was created with
    is_response: bool


def bytes_of(payload: Buffer) -> bytes:
    """Returns the bytes of a bytes-like object. Raises `TypeError` for a number, which `bytes` would take for a length."""
    return payload if isinstance(payload, bytes) else bytes(memoryview(payload))


class Life:
    """Whether a port or message was sent or released, and the bytes that views of its payload use. They keep the hub alive."""

    def __init__(self) -> None:
        self.is_over = False
        self._lent: Optional[weakref.ref[Any]] = None

    def lend(self, hub: Hub, at: int, length: int) -> Any:
        """Returns the bytes at an address, as an object that lives as long as a view of it."""
        lent = self._lent() if self._lent else None
        if lent is None:
            lent = (ctypes.c_uint8 * length).from_address(at)
            lent.hub = hub
            self._lent = weakref.ref(lent)
            hub._lent[id(lent)] = lent
        return lent

    @property
    def is_viewed(self) -> bool:
        """Whether a view is still used."""
        return self._lent is not None and self._lent() is not None


class Named:
    """A port or a message. `release` releases it, and so does the end of its `with`, unless it was sent or released before.

    Raises `Unknown` if it was sent or released, and `HubClosed` if its hub was closed.
    """

    def __init__(self, hub: Hub, name: _library.Id, life: Optional[Life] = None) -> None:
        self._hub = hub
        self._id = name
        # A message that is written goes by another object, with the same life.
        self._life = life or Life()

    def __enter__(self) -> Self:
        return self

    def __exit__(self, raised: Optional[type[BaseException]], error: Optional[BaseException], trace: Optional[TracebackType]) -> None:
        with self._hub._lock:
            is_over = self._life.is_over or self._hub.is_closed
            # What an exception left in use is released with the hub.
            if not is_over and not (raised and self._life.is_viewed):
                self.release()

    def __repr__(self) -> str:
        return f"{type(self).__name__}({self.number})"

    @property
    def number(self) -> int:
        """Its number, which the hub gives to nothing else."""
        return int(self._id.number)

    @property
    def kind(self) -> Kind:
        """What the hub has under its number."""
        return Kind(self._asked("kind", ctypes.c_uint32))

    def release(self) -> None:
        """Releases it. Raises `ViewInUse`."""
        with self._hub._lock:
            self._must_not_be_viewed()
            self._call("release")
            self._life.is_over = True

    def _must_not_be_viewed(self) -> None:
        if self._life.is_viewed:
            raise ViewInUse()

    def _code(self, name: str, *arguments: Any) -> int:
        """Makes a call on it, and returns its code."""
        with self._hub._lock:
            if self._life.is_over and not self._hub.is_closed:
                return _library.UNKNOWN
            return self._hub._code(name, ctypes.byref(self._id), *arguments)

    def _call(self, name: str, *arguments: Any) -> None:
        """Makes a call on it, and raises the error if it is refused."""
        check(self._code(name, *arguments))

    def _asked(self, name: str, answer_type: Any, *arguments: Any) -> Any:
        """Makes a call that writes an answer, and returns that."""
        answer = answer_type()
        self._call(name, *arguments, ctypes.byref(answer))
        return getattr(answer, "value", answer)


class Message(Named):
    """A message.

    `payload` copies the bytes. `view` and `payload_as` show them where they lie: such a view, and all that is made over it, has to be
    deleted before the message is sent or released and before the hub is closed, which raise `ViewInUse` otherwise.
    """

    _place = "payload"

    @property
    def payload(self) -> bytes:
        """A copy of the bytes, as far as they are written."""
        at, length = _library.BYTES(), ctypes.c_size_t()
        with self._hub._lock:
            self._call("payload", ctypes.byref(at), ctypes.byref(length))
            return ctypes.string_at(at, length.value) if length.value else b""

    @property
    def view(self) -> memoryview:
        """The bytes where they lie: to be read, or, of a message that can be sent, to be written too."""
        at, length = _library.BYTES(), ctypes.c_size_t()
        with self._hub._lock:
            self._call(self._place, ctypes.byref(at), ctypes.byref(length))
            if not length.value:
                return memoryview(b"")
            lent = self._life.lend(self._hub, ctypes.addressof(at.contents), length.value)
        view = memoryview(lent).cast("B")
        return view if self._place == "payload_mut" else view.toreadonly()

    @overload
    def payload_as(self, kind: type[T]) -> T: ...

    @overload
    def payload_as(self, kind: str) -> memoryview: ...

    @overload
    def payload_as(self, kind: Any) -> Any: ...

    def payload_as(self, kind: Any) -> Any:
        """The payload as a value of this type:

        - a type of `ctypes`, as a `Structure`: a copy. Raises `WrongLength` if its size is another one;
        - a type code of `array`, as "d": a `memoryview` of such numbers, without a copy;
        - a dtype of NumPy, as `numpy.dtype("f8")`: an array, without a copy.
        """
        view = self.view
        if isinstance(kind, str):
            return view.cast(kind)  # type: ignore[call-overload]
        if isinstance(kind, type) and issubclass(kind, _CData):
            if len(view) != ctypes.sizeof(kind):
                raise WrongLength()
            return kind.from_buffer_copy(view)  # type: ignore[attr-defined]
        import numpy

        return numpy.frombuffer(view, kind)

    @property
    def header(self) -> Header:
        """The header."""
        header = self._asked("header", _library.Header)
        return Header(*(getattr(header, name) for name in Header._fields))

    @property
    def user_header(self) -> bytes:
        """The 16 bytes of the user header. A message that was not sent may be given at most so many; those after them are 0 then."""
        return bytes(self._asked("user_header", _library.UserHeader).bytes)


class Unsent(Message):
    """A message that was not sent."""

    @property
    def user_header(self) -> bytes:
        """The 16 bytes of the user header, which may be given at most so many; those after them are 0 then."""
        return super().user_header

    @user_header.setter
    def user_header(self, header: Buffer) -> None:
        written = bytes_of(header)
        if len(written) > ctypes.sizeof(_library.UserHeader):
            raise ValueError("a user header has 16 bytes")
        self._call("set_user_header", ctypes.byref(_library.UserHeader.from_buffer_copy(written.ljust(16, b"\0"))))

    def set(self, index: int, byte: int) -> bool:
        """Replaces a byte that was written. Returns whether there is one."""
        was_there = self._asked("set", ctypes.c_bool, _library.whole(index, 64, "index"), _library.whole(byte, 8, "a byte"))
        return bool(was_there)
