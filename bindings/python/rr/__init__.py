"""Request-response ports in one process: a client sends requests, servers answer each as often as they like.

    import rr

    with rr.Hub() as hub, hub.client(16) as client, hub.server(16) as server:
        with client.send(b"ask") as pending:
            with server.receive() as active:
                active.send(active.payload.upper())
            for response in pending:
                with response:
                    print(response.payload)

Payloads are bytes-like: bytes, a `ctypes.Structure`, an `array`, a NumPy array. `payload` copies the bytes of a message, `payload_as` shows
them as one of these types, and `view` shows them where they lie. A message has a user header of 16 bytes beside its payload. `release`
releases a port or a message, and so does the end of its `with`, unless it was sent; closing the hub releases all.

Threads may share a hub. `receive(timeout=SECONDS)` waits in a thread, `await receive_async()` and `async for` in a task.

A refused call raises an `RrError`, of which there is a subclass for each code of rr.h. It leaves everything as it was, but for a send: a
message whose send is refused is released. A number that is out of range raises `ValueError`.

The wheel carries the library. The variable RR_SO may name another file, of the same version.
"""
from rr import _errors
from rr._errors import *  # noqa: F403 (the errors by name)
from rr._handles import Header
from rr._hub import Hub
from rr._library import AllocationStrategy, BackpressureStrategy, Kind, Limits
from rr._ports import (
    ActiveRequest,
    Client,
    PendingResponse,
    RequestMut,
    RequestMutUninit,
    Response,
    ResponseMut,
    ResponseMutUninit,
    Server,
)
from rr._version import VERSION as __version__

__all__ = [
    "ActiveRequest",
    "AllocationStrategy",
    "BackpressureStrategy",
    "Client",
    "Header",
    "Hub",
    "Kind",
    "Limits",
    "PendingResponse",
    "RequestMut",
    "RequestMutUninit",
    "Response",
    "ResponseMut",
    "ResponseMutUninit",
    "Server",
    "__version__",
]
__all__ += _errors.__all__
