#!/usr/bin/python3
"""A test client over aiohttp: client.py ws://HOST:PORT."""

import asyncio
import sys

from aiohttp import ClientSession, WSMsgType

LIMIT = 16 * 1024 * 1024 + 1  # bytes that a message may not have


def connect(session, path):
    return session.ws_connect(sys.argv[1] + path, max_msg_size=LIMIT, compress=0)


async def run(session, path):
    async with connect(session, path) as connection:
        async for message in connection:
            if message.type is WSMsgType.TEXT:
                await connection.send_str(message.data)
            elif message.type is WSMsgType.BINARY:
                await connection.send_bytes(message.data)


async def main():
    async with ClientSession() as session:
        async with connect(session, "/getCaseCount") as connection:
            count = int(await connection.receive_str())
        for number in range(1, count + 1):
            await run(session, f"/runCase?case={number}")
        await run(session, "/updateReports")


asyncio.run(main())
