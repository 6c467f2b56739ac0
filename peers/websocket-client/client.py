#!/usr/bin/python3
"""A test client over websocket-client: client.py ws://HOST:PORT."""

import sys

from websocket import ABNF, WebSocketException, create_connection

PATIENCE = 2  # seconds in which the server may end the connection


def end(stream):
    """Waits for the server's end, and closes: the library does neither once it has answered a close."""
    if stream:
        stream.settimeout(PATIENCE)
        try:
            while stream.recv(65536):
                pass
        except OSError:
            pass
        stream.close()


def run(path):
    connection = create_connection(sys.argv[1] + path)
    try:
        opcode, data = connection.recv_data()
        while opcode != ABNF.OPCODE_CLOSE:
            connection.send(data, opcode)
            opcode, data = connection.recv_data()
    except (WebSocketException, OSError) as error:
        print(f"{path} ended: {error!r}", file=sys.stderr)
    finally:
        connection.close()
        end(connection.sock)


connection = create_connection(sys.argv[1] + "/getCaseCount")
count = int(connection.recv())
connection.close()
for number in range(1, count + 1):
    run(f"/runCase?case={number}")
run("/updateReports")
