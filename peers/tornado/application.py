#!/usr/bin/python3
"""A chat over tornado, which doesn't echo: application.py PORT. It greets, asks whether the other is there, and sends
what comes to all, with a word before it."""

import asyncio
import sys

from tornado.web import Application
from tornado.websocket import WebSocketClosedError, WebSocketHandler

LIMIT = 16 * 1024 * 1024  # bytes of a message

members = set()


class Chat(WebSocketHandler):
    def get_compression_options(self):
        return None

    def open(self, *_):
        members.add(self)
        self.write_message("welcome")
        self.ping(b"there?")

    def on_message(self, message):
        is_binary = isinstance(message, bytes)
        told = b"some bytes: " + message if is_binary else f"someone said {message}"
        for member in list(members):
            try:
                member.write_message(told, binary=is_binary)
            except WebSocketClosedError:
                members.discard(member)

    def on_close(self):
        members.discard(self)


async def main():
    application = Application([("/.*", Chat)], websocket_max_message_size=LIMIT)
    application.listen(int(sys.argv[1]), "127.0.0.1")
    print("listening", flush=True)
    await asyncio.Event().wait()


asyncio.run(main())
