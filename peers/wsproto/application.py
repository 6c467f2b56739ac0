#!/usr/bin/python3
"""A chat over wsproto, which doesn't echo: application.py PORT. It greets, asks whether the other is there, and sends
what comes to all, with a word before it."""

import socketserver
import sys
from threading import Lock

from echo import end, events_of
from wsproto import ConnectionType, WSConnection
from wsproto.events import AcceptConnection, BytesMessage, Ping, Request, TextMessage
from wsproto.utilities import LocalProtocolError, RemoteProtocolError

members = {}  # the connection over each stream
turn = Lock()  # whoever sends has it


def greet(stream, connection):
    stream.sendall(connection.send(AcceptConnection()))
    stream.sendall(connection.send(TextMessage(data="welcome")) + connection.send(Ping(payload=b"there?")))
    members[stream] = connection


def tell_all(message):
    with turn:
        for stream, connection in list(members.items()):
            try:
                stream.sendall(connection.send(message))
            except (OSError, LocalProtocolError):
                pass  # one that has gone


def chat(stream, connection):
    parts = []
    for event in events_of(stream, connection):
        if isinstance(event, Request):
            with turn:
                greet(stream, connection)
        elif isinstance(event, (TextMessage, BytesMessage)):
            parts.append(event.data)
            if event.message_finished:
                word = "someone said " if isinstance(event, TextMessage) else b"some bytes: "
                tell_all(type(event)(data=event.data[:0].join([word, *parts])))
                parts = []


class Handler(socketserver.BaseRequestHandler):
    def handle(self):
        connection = WSConnection(ConnectionType.SERVER)
        try:
            chat(self.request, connection)
            end(self.request)
        except RemoteProtocolError as error:  # a request that is none for an upgrade
            self.request.sendall(connection.send(error.event_hint))
        except OSError as error:
            print(f"a connection ended: {error!r}", file=sys.stderr)
        finally:
            members.pop(self.request, None)


class Server(socketserver.ThreadingTCPServer):
    allow_reuse_address = True
    daemon_threads = True


with Server(("127.0.0.1", int(sys.argv[1])), Handler) as server:
    print("listening", flush=True)
    server.serve_forever()
