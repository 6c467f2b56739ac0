#!/usr/bin/python3
"""A test client over wsproto: client.py ws://HOST:PORT."""

import socket
import sys
from contextlib import contextmanager
from urllib.parse import urlsplit

from echo import echo, end, events_of
from wsproto import ConnectionType, WSConnection
from wsproto.events import Request, TextMessage

ADDRESS = urlsplit(sys.argv[1])


@contextmanager
def connect(path):
    with socket.create_connection((ADDRESS.hostname, ADDRESS.port)) as stream:
        connection = WSConnection(ConnectionType.CLIENT)
        stream.sendall(connection.send(Request(host=ADDRESS.netloc, target=path)))
        yield stream, connection


def case_count():
    with connect("/getCaseCount") as (stream, connection):
        return int("".join(event.data for event in events_of(stream, connection) if isinstance(event, TextMessage)))


def run(path):
    with connect(path) as (stream, connection):
        try:
            echo(stream, connection)
            end(stream)
        except OSError as error:
            print(f"{path} ended: {error!r}", file=sys.stderr)


for number in range(1, case_count() + 1):
    run(f"/runCase?case={number}")
run("/updateReports")
