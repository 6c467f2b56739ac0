"""Runs of `wst test` and `wst send` against a server over loopback, for which a request for memory is refused."""

import socket
import subprocess
from threading import Thread

from loopback.server import Client
from loopback.wire import CLOSE_BACK, EMPTY_BACK, EMPTY_TEXT, MASKED_CLOSE, RESPONSE, request_to
from shim import Ended, refusing

SECONDS = 20

# The words of a run, the server at ADDRESS, what it reads, and what it writes: a case, the same three times, two at a
# time, and the same as a script.
TEST = (
    ["test", "ADDRESS", "1.1.1"],
    b"",
    b"1.1.1 PASS\n1 pass, 0 loose, 0 fail\n",
)
AT_ONCE = (
    ["test", "--at-once", "2", "ADDRESS", *["1.1.1"] * 3],
    b"",
    b"1.1.1 PASS\n" * 3 + b"3 pass, 0 loose, 0 fail\n",
)
SEND = (
    ["send", "ADDRESS"],
    b"text -\nwait\nclose=1000\n",
    b"turn 1\n> 0 text fin=1 rsv=0 key=37fa213d len=0 short -\n< 0 text fin=1 rsv=0 key=- len=0 short -\n"
    b"turn 2\n> 6 close fin=1 rsv=0 key=37fa213d len=2 short 03e8\n< 2 close fin=1 rsv=0 key=- len=2 short 03e8\n"
    b"end peer\n",
)


class AtServer:
    """`wst` with these words and this input against a server that echoes, and the shim that refuses its memory."""

    def __init__(self, shim, wst, words, given):
        self.shim, self.wst, self.words, self.given = shim, wst, words, given

    def outcome(self, place):
        """Refuses the request with this number: how the run ended, and whether a request was refused."""
        return refusing(self.shim, place, self.run)

    def run(self, **options):
        pipes = {"input": self.given, "stdout": subprocess.PIPE, "stderr": subprocess.STDOUT}
        with socket.create_server(("127.0.0.1", 0)) as listener:
            address = f"127.0.0.1:{listener.getsockname()[1]}"
            echo = Thread(target=answer, args=[listener, address])
            echo.start()
            try:
                words = [address if word == "ADDRESS" else word for word in self.words]
                ran = subprocess.run([self.wst, *words], timeout=SECONDS, **pipes, **options)
            finally:
                # Where there was no connection, none is waited for any more.
                listener.shutdown(socket.SHUT_RDWR)
                echo.join()
        return Ended(ran.returncode, ran.stdout)


def answer(listener, address):
    """Serves one connection after the other, as long as what comes is what the case sends."""
    turns = [(request_to(address), RESPONSE), (EMPTY_TEXT, EMPTY_BACK), (MASKED_CLOSE, CLOSE_BACK)]
    try:
        while True:
            serve(Client(listener.accept()[0]), turns)
    except OSError:
        pass


def serve(client, turns):
    """The end of its stream comes behind that of the tester's, in each run, so that each makes the same requests."""
    try:
        with client.stream:
            for sent, back in turns:
                if client.get(len(sent)) != sent:
                    return
                client.send(back)
            client.rest()
    except OSError:
        pass
