#!/usr/bin/python3
"""An echo server over tornado: server.py PORT."""

import asyncio
import sys

from tornado.web import Application
from tornado.websocket import WebSocketHandler

LIMIT = 16 * 1024 * 1024  # bytes of a message


class Echo(WebSocketHandler):
    def get_compression_options(self):
        return None

    def on_message(self, message):
        self.write_message(message, binary=isinstance(message, bytes))


async def main():
    application = Application([("/.*", Echo)], websocket_max_message_size=LIMIT)
    application.listen(int(sys.argv[1]), "127.0.0.1")
    print("listening", flush=True)
    await asyncio.Event().wait()


asyncio.run(main())
