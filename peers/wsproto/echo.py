"""An echo over wsproto, which has no streams of its own: what the server and the client share."""

import socket

from wsproto.connection import ConnectionState
from wsproto.events import AcceptConnection, BytesMessage, CloseConnection, Ping, Request, TextMessage

PATIENCE = 2  # seconds in which the peer may end its direction behind a close


def events_of(stream, connection):
    """What the peer sends, up to a close or the end of the stream. Pings and closes are answered."""
    while True:
        connection.receive_data(stream.recv(65536) or None)
        for event in connection.events():
            if isinstance(event, CloseConnection):
                if connection.state is not ConnectionState.CLOSED:
                    stream.sendall(connection.send(event.response()))
                return
            if isinstance(event, Ping):
                stream.sendall(connection.send(event.response()))
            yield event


def echo(stream, connection):
    """Sends each message back, whole, until the peer closes; a request for an upgrade is accepted."""
    parts = []
    for event in events_of(stream, connection):
        if isinstance(event, Request):
            stream.sendall(connection.send(AcceptConnection()))
        elif isinstance(event, (TextMessage, BytesMessage)):
            parts.append(event.data)
            if event.message_finished:
                stream.sendall(connection.send(type(event)(data=event.data[:0].join(parts))))
                parts = []


def end(stream):
    """Ends the own direction, and waits for the peer's end, so that no unread byte resets the connection."""
    stream.shutdown(socket.SHUT_WR)
    stream.settimeout(PATIENCE)
    while stream.recv(65536):
        pass
