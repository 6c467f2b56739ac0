#!/usr/bin/python3
"""A test client over websockets: client.py ws://HOST:PORT."""

import asyncio
import sys

import websockets

LIMIT = 16 * 1024 * 1024  # bytes of a message


def connect(path):
    return websockets.connect(sys.argv[1] + path, max_size=LIMIT, compression=None, ping_interval=None)


async def echo(path):
    try:
        async with connect(path) as connection:
            async for message in connection:
                await connection.send(message)
    except websockets.ConnectionClosed:
        pass  # a case that ends in another way than by a clean close


async def main():
    async with connect("/getCaseCount") as connection:
        count = int(await connection.recv())
    for number in range(1, count + 1):
        await echo(f"/runCase?case={number}")
    await echo("/updateReports")


asyncio.run(main())
