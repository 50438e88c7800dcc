"""Threads and tasks that wait until another thread or task has changed a hub."""
from __future__ import annotations

import threading
import time
from typing import TYPE_CHECKING, Callable, Optional, TypeVar

if TYPE_CHECKING:
    import asyncio

T = TypeVar("T")


class Sleepers:
    """Threads that sleep until another one wakes them. Whoever calls has the lock."""

    def __init__(self, lock: threading.RLock) -> None:
        self._woken = threading.Condition(lock)
        self._count = 0

    def wake(self) -> None:
        if self._count:
            self._woken.notify_all()

    def until(self, attempt: Callable[[], Optional[T]], timeout: Optional[float]) -> Optional[T]:
        """Attempts until the result is not None or so many seconds have passed (None: endlessly), and returns the last result."""
        deadline = None if timeout is None else time.monotonic() + timeout
        result = attempt()
        while result is None:
            left = threading.TIMEOUT_MAX if deadline is None else deadline - time.monotonic()
            if left <= 0:
                break
            self._sleep(min(left, threading.TIMEOUT_MAX))
            result = attempt()
        return result

    def _sleep(self, seconds: float) -> None:
        self._count += 1
        try:
            self._woken.wait(seconds)
        finally:
            self._count -= 1


class Waits:
    """The waits of a hub. Each attempt is made under the hub's lock, and what found nothing waits before another call is made, so that no
    change is missed."""

    def __init__(self, lock: threading.RLock) -> None:
        self._lock = lock
        self._for_messages = Sleepers(lock)
        self._for_room = Sleepers(lock)
        self._tasks: list[asyncio.Future[None]] = []

    def wake_for_room(self) -> None:
        """Lets those attempt again that wait for room. The caller has the lock."""
        self._for_room.wake()

    def wake(self) -> None:
        """Lets all attempt again. The caller has the lock."""
        self._for_room.wake()
        self._for_messages.wake()
        tasks, self._tasks = self._tasks, []
        for future in tasks:
            try:
                future.get_loop().call_soon_threadsafe(_finish, future)
            except RuntimeError:
                pass  # its loop was closed

    def until_message(self, attempt: Callable[[], Optional[T]], timeout: Optional[float]) -> Optional[T]:
        """Attempts to receive, as `Sleepers.until`."""
        with self._lock:
            return self._for_messages.until(attempt, timeout)

    def until_room(self, attempt: Callable[[], Optional[T]], timeout: Optional[float]) -> Optional[T]:
        """Attempts, which changes nothing, as `Sleepers.until`."""
        with self._lock:
            return self._for_room.until(attempt, timeout)

    async def until_message_async(self, attempt: Callable[[], Optional[T]]) -> T:
        """Attempts to receive until the result is not None, and returns it. A task that is cancelled has received nothing."""
        import asyncio  # here, since few programs need it

        while True:
            with self._lock:
                result = attempt()
                if result is not None:
                    return result
                future: asyncio.Future[None] = asyncio.get_running_loop().create_future()
                self._tasks.append(future)
            try:
                await future
            finally:
                with self._lock:
                    if future in self._tasks:
                        self._tasks.remove(future)


def _finish(future: asyncio.Future[None]) -> None:
    if not future.done():
        future.set_result(None)
