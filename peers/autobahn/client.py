#!/usr/bin/python3
"""A test client over autobahn, on asyncio: client.py ws://HOST:PORT."""

import asyncio
import sys
from urllib.parse import urlsplit

from autobahn.asyncio.websocket import WebSocketClientFactory, WebSocketClientProtocol

LIMIT = 16 * 1024 * 1024  # bytes of a message
ADDRESS = urlsplit(sys.argv[1])


class Echo(WebSocketClientProtocol):
    def onMessage(self, payload, isBinary):
        self.factory.messages.append(payload)
        if self.factory.is_echo:
            self.sendMessage(payload, isBinary)

    def onClose(self, wasClean, code, reason):
        if not self.factory.ended.done():
            self.factory.ended.set_result(None)


async def run(path, is_echo=True):
    """The messages that came over a connection, once it has ended."""
    factory = WebSocketClientFactory(sys.argv[1] + path)
    factory.protocol, factory.is_echo, factory.messages = Echo, is_echo, []
    factory.ended = asyncio.get_running_loop().create_future()
    factory.setProtocolOptions(maxMessagePayloadSize=LIMIT)
    await asyncio.get_running_loop().create_connection(factory, ADDRESS.hostname, ADDRESS.port)
    await factory.ended
    return factory.messages


async def main():
    count = int((await run("/getCaseCount", is_echo=False))[0])
    for number in range(1, count + 1):
        await run(f"/runCase?case={number}")
    await run("/updateReports")


asyncio.run(main())
