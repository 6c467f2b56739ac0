#!/usr/bin/python3
"""An echo server over aiohttp: server.py PORT."""

import asyncio
import sys

from aiohttp import WSMsgType, web

LIMIT = 16 * 1024 * 1024 + 1  # bytes that a message may not have


async def echo(request):
    connection = web.WebSocketResponse(max_msg_size=LIMIT, compress=False)
    await connection.prepare(request)
    async for message in connection:
        if message.type is WSMsgType.TEXT:
            await connection.send_str(message.data)
        elif message.type is WSMsgType.BINARY:
            await connection.send_bytes(message.data)
    return connection


async def main():
    application = web.Application()
    application.router.add_get("/{path:.*}", echo)
    runner = web.AppRunner(application)
    await runner.setup()
    await web.TCPSite(runner, "127.0.0.1", int(sys.argv[1])).start()
    print("listening", flush=True)
    await asyncio.Event().wait()


asyncio.run(main())
