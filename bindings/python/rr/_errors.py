"""Why calls are refused."""
from __future__ import annotations

import re

__all__ = [
    "ClientCreateExceedsMaxSupportedClients",
    "ClientCreateUnableToCreateDataSegment",
    "ClientCreateUnableToCreatePortTag",
    "HubClosed",
    "HubCreateLimitsTooLarge",
    "HubCreateOutOfMemory",
    "HubCreateZeroLimit",
    "Incomplete",
    "InvalidSetting",
    "LibraryMissing",
    "LibraryProcessor",
    "LibraryVersion",
    "LoanExceedsMaxLoanSize",
    "LoanExceedsMaxLoans",
    "LoanOutOfMemory",
    "NumbersExhausted",
    "ReceiveExceedsMaxBorrows",
    "RrError",
    "SendExceedsMaxActiveRequests",
    "SendUnableToDeliver",
    "ServerCreateExceedsMaxSupportedServers",
    "ServerCreateUnableToCreateDataSegment",
    "ServerCreateUnableToCreatePortTag",
    "Unknown",
    "ViewInUse",
    "WrongKind",
    "WrongLength",
]


class RrError(Exception):
    """A call was refused. There is a subclass for each code of rr.h, named as the code: `LoanOutOfMemory` is RR_LOAN_OUT_OF_MEMORY."""

    code: int = 0
    code_name: str = ""

    def __init_subclass__(cls, code: int, **others: object) -> None:
        super().__init_subclass__(**others)
        cls.code = code
        cls.code_name = "RR" + re.sub("[A-Z]", lambda it: f"_{it[0]}", cls.__name__).upper()
        cls.__module__ = "rr"

    def __init__(self) -> None:
        super().__init__(f"{self.code_name}: {self.__doc__}")


class Unknown(RrError, code=1):
    """the port or message was sent or released"""


class WrongKind(RrError, code=2):
    """the message has become one that has no such call"""


class NumbersExhausted(RrError, code=3):
    """the hub has given all its numbers, 2 to the 62 of them"""


class Incomplete(RrError, code=4):
    """less of the payload is written than was asked for"""


class WrongLength(RrError, code=5):
    """the payload has another length"""


class InvalidSetting(RrError, code=7):
    """a strategy is none of those that there are"""


class ClientCreateUnableToCreateDataSegment(RrError, code=10):
    """no memory, or a pool larger than a size_t counts"""


class ClientCreateExceedsMaxSupportedClients(RrError, code=11):
    """as many clients are connected as may be; it helps to release one and its messages"""


class ClientCreateUnableToCreatePortTag(RrError, code=13):
    """no number is left"""


class ServerCreateExceedsMaxSupportedServers(RrError, code=20):
    """as many servers are connected as may be; it helps to release one and its messages"""


class ServerCreateUnableToCreateDataSegment(RrError, code=21):
    """no memory, or a pool larger than a size_t counts"""


class ServerCreateUnableToCreatePortTag(RrError, code=23):
    """no number is left"""


class LoanOutOfMemory(RrError, code=30):
    """the port's messages fill its pool, or no memory for a slice longer than the slots; it helps to release messages"""


class LoanExceedsMaxLoans(RrError, code=31):
    """as many messages are on loan as may be; it helps to send or release one"""


class LoanExceedsMaxLoanSize(RrError, code=32):
    """longer than the slots, which may not grow; another `AllocationStrategy` lets them"""


class SendUnableToDeliver(RrError, code=41):
    """a queue is full, and the port's strategy is to retry; it helps to receive there, or to wait with `timeout`"""


class SendExceedsMaxActiveRequests(RrError, code=42):
    """as many pending responses of the client live as may be; it helps to release one"""


class ReceiveExceedsMaxBorrows(RrError, code=50):
    """as many received messages are held as may be; it helps to release one"""


class HubCreateZeroLimit(RrError, code=60):
    """a limit that must be at least 1 is 0"""


class HubCreateLimitsTooLarge(RrError, code=61):
    """a worst-case size is more than a size_t counts"""


class HubCreateOutOfMemory(RrError, code=62):
    """no memory for the hub"""


class HubClosed(ValueError):
    """The hub was closed, and nothing of it can be used any more."""

    def __init__(self) -> None:
        super().__init__("the hub is closed")


class ViewInUse(BufferError):
    """A view of a payload is still used, or an array over it. Its message can't be sent or released before, nor its hub closed."""

    def __init__(self) -> None:
        super().__init__("a view of the payload is still used: delete it, or copy what is kept, and call again")


class LibraryMissing(ImportError):
    """The file of the library is missing."""


class LibraryVersion(ImportError):
    """The library has another version than the package."""


class LibraryProcessor(ImportError):
    """The library is for another processor or system."""


ERRORS = {error.code: error for error in RrError.__subclasses__()}


def check(code: int) -> None:
    """Raises the error of a code that is not RR_OK."""
    if code:
        raise ERRORS[code]()
