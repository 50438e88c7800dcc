"""What rr.h declares, for ctypes: its structs, choices and functions."""
from __future__ import annotations

import ctypes
import enum
import operator
import os
import pathlib
import platform
from typing import Any, ClassVar

from rr._errors import LibraryMissing, LibraryProcessor, LibraryVersion
from rr._version import VERSION


def whole(value: Any, bits: int, name: str) -> int:
    """Returns a whole number of so many bits. Raises `ValueError` for one that is out of range, of which ctypes would take the lowest bits,
    and `TypeError` for what is no whole number."""
    number = operator.index(value)
    if not 0 <= number < 1 << bits:
        raise ValueError(f"{name} is 0 to 2^{bits} - 1, and not {number}")
    return number


class Settings(ctypes.Structure):
    """A struct that refuses unknown fields, numbers that a field can't hold, and flags that are neither True nor False."""

    __slots__ = ()
    _fields_: ClassVar[list[tuple[str, Any]]]

    def __setattr__(self, name: str, value: Any) -> None:
        field_type = dict(self._fields_).get(name)
        if field_type is None:
            raise AttributeError(f"{type(self).__name__} has no field {name}")
        if field_type is not ctypes.c_bool:
            value = whole(value, 8 * ctypes.sizeof(field_type), name)
        elif not isinstance(value, bool):
            raise TypeError(f"{name} is True or False, and not {value!r}")
        super().__setattr__(name, value)


class HubAt(ctypes.Structure):
    _fields_ = [("at", ctypes.c_void_p)]


class Id(ctypes.Structure):
    _fields_ = [("number", ctypes.c_uint64), ("row", ctypes.c_size_t), ("index", ctypes.c_size_t)]


class Header(ctypes.Structure):
    _fields_ = [
        ("port_id", ctypes.c_uint64),
        ("request_id", ctypes.c_uint64),
        ("number_of_elements", ctypes.c_uint64),
        ("node_id", ctypes.c_uint64),
        ("is_response", ctypes.c_bool),
    ]


class UserHeader(ctypes.Structure):
    _fields_ = [("bytes", ctypes.c_uint8 * 16)]


class Limits(Settings):
    """What a hub may hold. `Limits()` has iceoryx2's defaults; each field may be named: `Limits(max_clients=1)`.

    Raises `TypeError` for another name and for a flag that is no `bool`, and `ValueError` for a number that no size_t holds.
    """

    _fields_ = [
        ("max_clients", ctypes.c_size_t),
        ("max_servers", ctypes.c_size_t),
        ("max_loaned_requests", ctypes.c_size_t),
        ("max_active_requests_per_client", ctypes.c_size_t),
        ("max_response_buffer_size", ctypes.c_size_t),
        ("max_borrowed_responses_per_pending_response", ctypes.c_size_t),
        ("client_expired_connection_buffer", ctypes.c_size_t),
        ("server_expired_connection_buffer", ctypes.c_size_t),
        ("enable_safe_overflow_for_requests", ctypes.c_bool),
        ("enable_safe_overflow_for_responses", ctypes.c_bool),
        ("enable_fire_and_forget_requests", ctypes.c_bool),
    ]

    max_clients: int
    max_servers: int
    max_loaned_requests: int
    max_active_requests_per_client: int
    max_response_buffer_size: int
    max_borrowed_responses_per_pending_response: int
    client_expired_connection_buffer: int
    server_expired_connection_buffer: int
    enable_safe_overflow_for_requests: bool
    enable_safe_overflow_for_responses: bool
    enable_fire_and_forget_requests: bool

    def __init__(self, **limits: int) -> None:
        names = [name for name, _ in self._fields_]
        for name in limits.keys() - set(names):
            raise TypeError(f"there is no limit {name}")
        super().__init__(**{**dict(zip(names, (8, 2, 2, 4, 2, 2, 128, 128, True, True, True))), **limits})


class ClientSettings(Settings):
    _fields_ = [
        ("initial_max_slice_len", ctypes.c_size_t),
        ("preallocated_requests", ctypes.c_size_t),
        ("backpressure_strategy", ctypes.c_uint32),
        ("allocation_strategy", ctypes.c_uint32),
    ]


class ServerSettings(Settings):
    _fields_ = [
        ("initial_max_slice_len", ctypes.c_size_t),
        ("preallocated_responses", ctypes.c_size_t),
        ("max_loaned_responses_per_request", ctypes.c_size_t),
        ("backpressure_strategy", ctypes.c_uint32),
        ("allocation_strategy", ctypes.c_uint32),
    ]


class BackpressureStrategy(enum.IntEnum):
    """What a port's sends do at a full queue that no safe overflow empties."""

    RETRY_UNTIL_DELIVERED = 0  # the send is refused with `SendUnableToDeliver`
    DISCARD_DATA = 1  # the queue is passed over


class AllocationStrategy(enum.IntEnum):
    """Whether a port's slots may grow for slices longer than their initial length."""

    STATIC = 0
    BEST_FIT = 1
    POWER_OF_TWO = 2


class Kind(enum.IntEnum):
    """What an id names."""

    CLIENT = 0
    SERVER = 1
    REQUEST_MUT_UNINIT = 2
    REQUEST_MUT = 3
    PENDING_RESPONSE = 4
    ACTIVE_REQUEST = 5
    RESPONSE_MUT_UNINIT = 6
    RESPONSE_MUT = 7
    RESPONSE = 8


# Two codes that are no errors, and one that is returned for what is known to be gone.
OK, UNKNOWN, NOTHING, UNABLE_TO_DELIVER = 0, 1, 6, 41

BYTES = ctypes.POINTER(ctypes.c_uint8)

# What each function is passed after the hub.
_ARGUMENTS = {
    "kind": [ctypes.POINTER(Id), ctypes.POINTER(ctypes.c_uint32)],
    "client_create": [ctypes.POINTER(ClientSettings), ctypes.POINTER(Id)],
    "server_create": [ctypes.POINTER(ServerSettings), ctypes.POINTER(Id)],
    "update_connections": [ctypes.POINTER(Id)],
    "backpressure_strategy": [ctypes.POINTER(Id), ctypes.POINTER(ctypes.c_uint32)],
    "initial_max_slice_len": [ctypes.POINTER(Id), ctypes.POINTER(ctypes.c_size_t)],
    "loan_slice_uninit": [ctypes.POINTER(Id), ctypes.c_size_t, ctypes.POINTER(Id)],
    "fill": [ctypes.POINTER(Id), ctypes.c_uint8],
    "write_from_slice": [ctypes.POINTER(Id), ctypes.c_char_p, ctypes.c_size_t],
    "push": [ctypes.POINTER(Id), ctypes.c_uint8, ctypes.POINTER(ctypes.c_bool)],
    "assume_init": [ctypes.POINTER(Id)],
    "set": [ctypes.POINTER(Id), ctypes.c_size_t, ctypes.c_uint8, ctypes.POINTER(ctypes.c_bool)],
    "set_user_header": [ctypes.POINTER(Id), ctypes.POINTER(UserHeader)],
    "is_deliverable": [ctypes.POINTER(Id), ctypes.POINTER(ctypes.c_bool)],
    "payload_mut": [ctypes.POINTER(Id), ctypes.POINTER(BYTES), ctypes.POINTER(ctypes.c_size_t)],
    "send_refusal": [ctypes.POINTER(Id), ctypes.POINTER(ctypes.c_uint32)],
    "send": [ctypes.POINTER(Id), ctypes.POINTER(ctypes.c_size_t)],
    "send_copy": [ctypes.POINTER(Id), ctypes.c_char_p, ctypes.c_size_t, ctypes.POINTER(Id), ctypes.POINTER(ctypes.c_size_t)],
    "receive": [ctypes.POINTER(Id), ctypes.POINTER(Id)],
    "has_entries": [ctypes.POINTER(Id), ctypes.POINTER(ctypes.c_bool)],
    "is_connected": [ctypes.POINTER(Id), ctypes.POINTER(ctypes.c_bool)],
    "number_of_server_connections": [ctypes.POINTER(Id), ctypes.POINTER(ctypes.c_size_t)],
    "set_disconnect_hint": [ctypes.POINTER(Id)],
    "has_disconnect_hint": [ctypes.POINTER(Id), ctypes.POINTER(ctypes.c_bool)],
    "payload": [ctypes.POINTER(Id), ctypes.POINTER(BYTES), ctypes.POINTER(ctypes.c_size_t)],
    "header": [ctypes.POINTER(Id), ctypes.POINTER(Header)],
    "user_header": [ctypes.POINTER(Id), ctypes.POINTER(UserHeader)],
    "origin": [ctypes.POINTER(Id), ctypes.POINTER(ctypes.c_uint64)],
    "release": [ctypes.POINTER(Id)],
}


def _path() -> pathlib.Path:
    """Returns the file that RR_SO names, or the one in the package, or else, in a checkout, the one that `bindings/build` made."""
    package = pathlib.Path(__file__).resolve().parent
    if "RR_SO" in os.environ:
        return pathlib.Path(os.environ["RR_SO"])
    carried = package / "librr.so"
    return carried if carried.exists() else package.parent.parent / "lib" / "librr.so"


def _loaded(path: pathlib.Path) -> ctypes.CDLL:
    """Loads the library, or raises what is wrong with it."""
    if not path.exists():
        raise LibraryMissing(f"{path} is missing: install the wheel of rr again, or name the library by the variable RR_SO")
    try:
        library = ctypes.CDLL(str(path))
    except OSError as error:
        here = f"{platform.machine()}, {platform.system()}"
        raise LibraryProcessor(f"{path} is for x86_64 and Linux, and can't be loaded here ({here}): {error}") from error
    version = library.rr_version() if hasattr(library, "rr_version") else 0
    told = f"{version // 10000}.{version // 100 % 100}.{version % 100}" if version else "no version"
    if told != VERSION:
        raise LibraryVersion(f"{path} has {told}, and the package rr needs {VERSION}")
    return library


def _library() -> ctypes.CDLL:
    """Loads the library, and declares what its functions are passed."""
    library = _loaded(_path())
    library.rr_hub_create.argtypes = [ctypes.POINTER(Limits), ctypes.c_uint64, ctypes.POINTER(ctypes.c_void_p)]
    library.rr_hub_create.restype = ctypes.c_uint32
    library.rr_hub_drop.argtypes = [HubAt]
    library.rr_hub_drop.restype = None
    for name, arguments in _ARGUMENTS.items():
        function = getattr(library, f"rr_{name}")
        function.argtypes = [ctypes.POINTER(HubAt), *arguments]
        function.restype = ctypes.c_uint32
    return library


LIBRARY = _library()
