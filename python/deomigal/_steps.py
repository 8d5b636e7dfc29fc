"""Coroutines whose steps may wait: with and without asyncio."""
from __future__ import annotations

import asyncio
import inspect
import os
from concurrent.futures import ThreadPoolExecutor
from typing import Any, Callable, Coroutine, TypeVar

T = TypeVar("T")
# The worker threads, which a process has of its own, and how many.
THREADS = 32
threads: tuple[int, ThreadPoolExecutor] | None = None


def run(steps: Coroutine[Any, Any, T]) -> T:
    """What the steps return, of which none waits."""
    try:
        steps.send(None)
    except StopIteration as end:
        return end.value  # type: ignore[no-any-return]
    steps.close()
    raise TypeError("a call that waits is awaited")


async def awaited(found: Any) -> Any:
    """What a call returned, or what it is a coroutine of."""
    return await found if inspect.isawaitable(found) else found


async def in_thread(call: Callable[..., T], *words: Any) -> T:
    """What the call returns, made in a worker thread, or here without asyncio's loop."""
    global threads
    try:
        loop = asyncio.get_running_loop()
    except RuntimeError:
        return call(*words)
    if threads is None or threads[0] != os.getpid():
        threads = os.getpid(), ThreadPoolExecutor(THREADS, "deomigal")
    return await loop.run_in_executor(threads[1], call, *words)
