#!/usr/bin/python3
"""A chat over websockets, which doesn't echo: application.py PORT. It greets, asks whether the other is there, and
sends what comes to all, with a word before it."""

import asyncio
import sys

import websockets

LIMIT = 16 * 1024 * 1024  # bytes of a message

members = set()


async def chat(connection):
    members.add(connection)
    try:
        await connection.send("welcome")
        await connection.ping(b"there?")
        async for message in connection:
            told = f"someone said {message}" if isinstance(message, str) else b"some bytes: " + message
            websockets.broadcast(members, told[:LIMIT])
    finally:
        members.discard(connection)


async def main():
    port = int(sys.argv[1])
    async with websockets.serve(chat, "127.0.0.1", port, max_size=LIMIT, compression=None, ping_interval=None):
        print("listening", flush=True)
        await asyncio.Future()


asyncio.run(main())
