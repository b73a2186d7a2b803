"""The client for asyncio. Each request runs in a thread, so it needs no other library."""
from __future__ import annotations

import asyncio
from collections.abc import AsyncIterator, Iterable
from typing import Any

from .client import Client, Event
from .errors import BayeuxError


class AsyncClient:
    """Like `Client`, with the same arguments, for `async with`."""

    def __init__(self, *args: Any, **options: Any) -> None:
        self.client = Client(*args, **options)

    async def __aenter__(self) -> AsyncClient:
        return self

    async def __aexit__(self, *_: object) -> None:
        await self.close()

    async def publish(self, channel: str, data: Any) -> None:
        await asyncio.to_thread(self.client.publish, channel, data)

    async def publish_all(self, messages: Iterable[tuple[str, Any]]) -> list[BayeuxError | None]:
        return await asyncio.to_thread(self.client.publish_all, list(messages))

    async def listen(self, *patterns: str) -> AsyncIterator[Event]:
        """Yields each event. If the task is cancelled, the client is closed."""
        events = self.client.listen(*patterns)

        def next_event() -> Event | None:
            return next(events, None)

        try:
            while (event := await asyncio.to_thread(next_event)) is not None:
                yield event
        finally:
            await asyncio.shield(self.close())

    async def close(self) -> None:
        await asyncio.to_thread(self.client.close)
