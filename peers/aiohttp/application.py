#!/usr/bin/python3
"""A chat over aiohttp, which doesn't echo: application.py PORT. It greets, asks whether the other is there, and sends
what comes to all, with a word before it."""

import asyncio
import sys

from aiohttp import WSMsgType, web

LIMIT = 16 * 1024 * 1024 + 1  # bytes that a message may not have

members = set()


async def tell_all(message):
    for member in list(members):
        try:
            if message.type is WSMsgType.TEXT:
                await member.send_str(f"someone said {message.data}")
            elif message.type is WSMsgType.BINARY:
                await member.send_bytes(b"some bytes: " + message.data)
        except (ConnectionError, RuntimeError):
            members.discard(member)  # one that has gone


async def chat(request):
    connection = web.WebSocketResponse(max_msg_size=LIMIT, compress=False)
    await connection.prepare(request)
    members.add(connection)
    try:
        await connection.send_str("welcome")
        await connection.ping(b"there?")
        async for message in connection:
            await tell_all(message)
    finally:
        members.discard(connection)
    return connection


async def main():
    application = web.Application()
    application.router.add_get("/{path:.*}", chat)
    runner = web.AppRunner(application)
    await runner.setup()
    await web.TCPSite(runner, "127.0.0.1", int(sys.argv[1])).start()
    print("listening", flush=True)
    await asyncio.Event().wait()


asyncio.run(main())
