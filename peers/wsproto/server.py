#!/usr/bin/python3
"""An echo server over wsproto: server.py PORT."""

import socketserver
import sys

from echo import echo, end
from wsproto import ConnectionType, WSConnection
from wsproto.utilities import RemoteProtocolError


class Handler(socketserver.BaseRequestHandler):
    def handle(self):
        connection = WSConnection(ConnectionType.SERVER)
        try:
            echo(self.request, connection)
            end(self.request)
        except RemoteProtocolError as error:  # a request that is none for an upgrade
            self.request.sendall(connection.send(error.event_hint))
        except OSError as error:
            print(f"a connection ended: {error!r}", file=sys.stderr)


class Server(socketserver.ThreadingTCPServer):
    allow_reuse_address = True
    daemon_threads = True


with Server(("127.0.0.1", int(sys.argv[1])), Handler) as server:
    print("listening", flush=True)
    server.serve_forever()
