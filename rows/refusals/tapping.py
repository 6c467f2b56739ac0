"""Runs of `wst tap` between a client and a server of ours, for which a request for memory is refused."""

import socket
import subprocess
from threading import Thread, Timer

from loopback.server import Client
from loopback.wire import HELLO, HELLO_BACK, REQUEST, RESPONSE
from shim import Ended, refusing

SECONDS = 20
TURNS = [(REQUEST, RESPONSE), (HELLO, HELLO_BACK)]
LISTENING = b"listening on 127.0.0.1\n"
LINES = (
    LISTENING + b"1 > GET /chat HTTP/1.1\n1 < HTTP/1.1 101 Switching Protocols\n"
    b"1 > 0 text fin=1 rsv=0 key=37fa213d len=5 short 48656c6c6f\n"
    b"1 < 0 text fin=1 rsv=0 key=- len=5 short 48656c6c6f\n1 end client\n"
)

# What a run is whose network lacks memory: it can't listen, or can't look up the server.
OF_THE_NETWORK = [Ended(3, b"not listening: failed\n"), Ended(0, LISTENING + b"1 no connection\n")]


class Tap:
    """`wst tap` of one connection, and the shim that refuses its memory."""

    def __init__(self, shim, wst):
        self.shim, self.wst = shim, wst

    def outcome(self, place):
        """Refuses the request with this number: how the run ended, and whether a request was refused."""
        return refusing(self.shim, place, self.run)

    def run(self, **options):
        pipes = {"stdin": subprocess.DEVNULL, "stdout": subprocess.PIPE, "stderr": subprocess.STDOUT}
        with socket.create_server(("127.0.0.1", 0)) as listener:
            server = Thread(target=answer, args=[listener])
            server.start()
            words = [self.wst, "tap", "127.0.0.1:0", f"127.0.0.1:{listener.getsockname()[1]}", "1"]
            with subprocess.Popen(words, **pipes, **options) as process:
                timer = Timer(SECONDS, process.kill)
                timer.start()
                try:
                    line = process.stdout.readline()
                    if line.startswith(b"listening"):
                        front, _, port = line.rpartition(b":")
                        ask(int(port))
                        line = front + b"\n"
                    text = line + process.stdout.read()
                    return Ended(process.wait(), text)
                finally:
                    timer.cancel()
                    # Where there was no connection, none is waited for any more.
                    listener.shutdown(socket.SHUT_RDWR)
                    server.join()


def answer(listener):
    """Serves one connection, as long as what comes is what the client sends."""
    try:
        client = Client(listener.accept()[0])
        with client.stream:
            for sent, back in TURNS:
                if client.get(len(sent)) != sent:
                    return
                client.send(back)
            client.rest()
    except OSError:
        pass


def ask(port):
    """A connection of a client, which ends it where it has got all."""
    try:
        client = Client(socket.create_connection(("127.0.0.1", port), SECONDS))
        with client.stream:
            for sent, back in TURNS:
                client.send(sent)
                if client.get(len(back)) != back:
                    return
    except OSError:
        pass
