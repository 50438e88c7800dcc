"""Hubs: what owns the ports of a service."""
from __future__ import annotations

import ctypes
import threading
import weakref
from typing import TYPE_CHECKING, Any, Optional

from rr import _library
from rr._errors import HubClosed, ViewInUse, check
from rr._library import AllocationStrategy, BackpressureStrategy, Limits
from rr._ports import Client, Server
from rr._waits import Waits

if TYPE_CHECKING:
    from typing_extensions import Self

_DISCARD, _STATIC = BackpressureStrategy.DISCARD_DATA, AllocationStrategy.STATIC

# The calls that may end any wait. A receive may make room, also one of nothing, which drops requests that no client waits for.
_CHANGES = {"release", "send", "send_copy"}


class Hub:
    """All ports of a service. Raises `HubCreateZeroLimit`, `HubCreateLimitsTooLarge`, `HubCreateOutOfMemory`.

    Threads may share it: one call is made at a time. Each call of a closed hub raises `HubClosed`.
    """

    def __init__(self, limits: Optional[Limits] = None, node_id: int = 0) -> None:
        self._hub = _library.HubAt()
        self._lock = threading.RLock()
        self._waits = Waits(self._lock)
        self._lent: weakref.WeakValueDictionary[int, Any] = weakref.WeakValueDictionary()
        at = ctypes.c_void_p()
        limits, node_id = limits or Limits(), _library.whole(node_id, 64, "node_id")
        check(_library.LIBRARY.rr_hub_create(ctypes.byref(limits), node_id, ctypes.byref(at)))
        self._hub.at = at.value

    def __enter__(self) -> Self:
        return self

    def __exit__(self, raised: object, *_: object) -> None:
        # A hub whose payloads an exception left in use is closed when they are not used any more.
        if not (raised and len(self._lent) > 0):
            self.close()

    def __del__(self) -> None:
        self.close()

    def close(self) -> None:
        """Drops the hub with all that it has, and ends all waits. Closing it again does nothing. Raises `ViewInUse`, and stays open then.

        An interrupt in the middle drops nothing twice; at worst the hub's memory stays with the process.
        """
        with self._lock:
            if len(self._lent) > 0:
                raise ViewInUse()
            at = self._hub.at
            self._hub.at = None
            if at is not None:
                self._waits.wake()
                _library.LIBRARY.rr_hub_drop(_library.HubAt(at))

    @property
    def is_closed(self) -> bool:
        """Whether the hub was closed."""
        return self._hub.at is None

    def client(
        self,
        initial_max_slice_len: int,
        preallocated_requests: int = 0,
        backpressure_strategy: int = _DISCARD,
        allocation_strategy: int = _STATIC,
    ) -> Client:
        """Creates a client whose slots have room for so many bytes. Its pool has as many slots as are preallocated (0: as the limits can
        ask for).

        Raises `InvalidSetting`, `ClientCreateExceedsMaxSupportedClients`, `ClientCreateUnableToCreateDataSegment`,
        `ClientCreateUnableToCreatePortTag`.
        """
        settings = _library.ClientSettings(initial_max_slice_len, preallocated_requests, backpressure_strategy, allocation_strategy)
        return Client(self, self._made("client_create", ctypes.byref(settings)))

    def server(
        self,
        initial_max_slice_len: int,
        preallocated_responses: int = 0,
        max_loaned_responses_per_request: int = 1,
        backpressure_strategy: int = _DISCARD,
        allocation_strategy: int = _STATIC,
    ) -> Server:
        """Creates a server whose slots have room for so many bytes. Its pool is as a client's.

        Raises `InvalidSetting`, `ServerCreateExceedsMaxSupportedServers`, `ServerCreateUnableToCreateDataSegment`,
        `ServerCreateUnableToCreatePortTag`.
        """
        sizes = (initial_max_slice_len, preallocated_responses, max_loaned_responses_per_request)
        settings = _library.ServerSettings(*sizes, backpressure_strategy, allocation_strategy)
        return Server(self, self._made("server_create", ctypes.byref(settings)))

    def _code(self, name: str, *arguments: Any) -> int:
        """Makes a call, and returns its code."""
        with self._lock:
            if self.is_closed:
                raise HubClosed()
            code = int(getattr(_library.LIBRARY, f"rr_{name}")(ctypes.byref(self._hub), *arguments))
            if name in _CHANGES:
                self._waits.wake()
            elif name == "receive":
                self._waits.wake_for_room()
            return code

    def _made(self, name: str, *arguments: Any) -> _library.Id:
        """Makes a call that writes an id."""
        made = _library.Id()
        check(self._code(name, *arguments, ctypes.byref(made)))
        return made
