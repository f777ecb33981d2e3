"""Waiting in a task: for what a coroutine does, and for what any task or thread has at hand."""
import asyncio
import threading


async def attempt(function, *arguments):
    """What a coroutine function returns, and what it raises: see rounds."""
    try:
        return await function(*arguments), None
    except BaseException as error:
        return None, error


class End:
    """The end of a task, for waiters of any loop."""

    def __init__(self):
        self._is_over = False
        self._waiters = []

    def add_waiter(self, waiter):
        """Has this called when the task has ended. False: it has."""
        self._waiters.append(waiter)
        return not self._is_over

    def set(self):
        self._is_over = True
        for waiter in self._waiters:
            waiter()


def _wake(future):
    if not future.done():
        future.set_result(None)


async def sleep(waits_at):
    """Waits until this wakes its waiters, in any loop or thread."""
    loop = asyncio.get_running_loop()
    future = loop.create_future()
    thread = threading.get_ident()

    def wake():
        if threading.get_ident() == thread:
            _wake(future)
        elif not loop.is_closed():
            loop.call_soon_threadsafe(_wake, future)

    if waits_at.add_waiter(wake):
        await future
