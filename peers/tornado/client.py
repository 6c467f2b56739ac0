#!/usr/bin/python3
"""A test client over tornado: client.py ws://HOST:PORT."""

import asyncio
import sys

from tornado.websocket import WebSocketClosedError, websocket_connect

LIMIT = 16 * 1024 * 1024  # bytes of a message
PATIENCE = 10  # seconds without a message: at some faults the library neither tells the end nor ends the connection


def connect(path):
    return websocket_connect(sys.argv[1] + path, max_message_size=LIMIT)


async def run(path):
    connection = await connect(path)
    try:
        while (message := await asyncio.wait_for(connection.read_message(), PATIENCE)) is not None:
            await connection.write_message(message, binary=isinstance(message, bytes))
    except WebSocketClosedError:
        pass  # the server has closed while its message was echoed
    except asyncio.TimeoutError:
        connection.close()


async def main():
    count = int(await (await connect("/getCaseCount")).read_message())
    for number in range(1, count + 1):
        await run(f"/runCase?case={number}")
    await run("/updateReports")


asyncio.run(main())
