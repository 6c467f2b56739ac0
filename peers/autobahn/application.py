#!/usr/bin/python3
"""A chat over autobahn, on asyncio, which doesn't echo: application.py PORT. It greets, asks whether the other is there,
and sends what comes to all, with a word before it."""

import asyncio
import sys

from autobahn.asyncio.websocket import WebSocketServerFactory, WebSocketServerProtocol

LIMIT = 16 * 1024 * 1024  # bytes of a message

members = set()


class Chat(WebSocketServerProtocol):
    def onOpen(self):
        members.add(self)
        self.sendMessage(b"welcome")
        self.sendPing(b"there?")

    def onMessage(self, payload, isBinary):
        told = (b"some bytes: " if isBinary else b"someone said ") + payload
        for member in list(members):
            member.sendMessage(told, isBinary)

    def onClose(self, wasClean, code, reason):
        members.discard(self)


async def main():
    factory = WebSocketServerFactory()
    factory.protocol = Chat
    factory.setProtocolOptions(maxMessagePayloadSize=LIMIT)
    server = await asyncio.get_running_loop().create_server(factory, "127.0.0.1", int(sys.argv[1]))
    print("listening", flush=True)
    await server.serve_forever()


asyncio.run(main())
