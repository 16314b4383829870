"""Who alone may change the store, and who waits for that."""

from __future__ import annotations

import asyncio
import collections
from typing import Counter, Deque, Optional, Tuple


class Turn:
    """The turn, which nobody has, or one, while others wait for it in order."""

    def __init__(self, wait: float, counts: Counter[str]) -> None:
        """Who waits longer than so many seconds doesn't get it. It is counted how many wait, and how many in vain."""
        self.wait, self.counts = wait, counts
        self.holder: Optional[object] = None
        self.queue: Deque[Tuple[object, asyncio.Future[bool]]] = collections.deque()

    async def take(self, who: object) -> bool:
        """Waits for the turn, and returns whether it came in time."""
        if self.holder is None:
            self.holder = who
            return True
        loop = asyncio.get_running_loop()
        comes: asyncio.Future[bool] = loop.create_future()
        self.queue.append((who, comes))
        timer = loop.call_later(self.wait, settle, comes, False)
        self.counts["waits"] += 1
        came = await comes
        timer.cancel()
        self.counts["busy"] += not came
        return came

    def pass_on(self) -> None:
        """Gives it to the one who has waited longest, if somebody waits."""
        self.holder = None
        while self.holder is None and self.queue:
            who, comes = self.queue.popleft()
            if settle(comes, True):
                self.holder = who

    def waiting(self) -> int:
        return sum(not comes.done() for _, comes in self.queue)


def settle(comes: asyncio.Future[bool], came: bool) -> bool:
    """Sets the result, unless there is one or nobody waits for it, and returns whether it did."""
    is_open = not comes.done()
    if is_open:
        comes.set_result(came)
    return is_open
