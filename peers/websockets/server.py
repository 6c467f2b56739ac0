#!/usr/bin/python3
"""An echo server over websockets: server.py PORT."""

import asyncio
import sys

import websockets

LIMIT = 16 * 1024 * 1024  # bytes of a message


async def echo(connection):
    async for message in connection:
        await connection.send(message)


async def main():
    port = int(sys.argv[1])
    async with websockets.serve(echo, "127.0.0.1", port, max_size=LIMIT, compression=None, ping_interval=None):
        print("listening", flush=True)
        await asyncio.Future()


asyncio.run(main())
