"""Clients of `wst serve` that go away, or send on when their connection has ended."""

import select
import signal
import socket
import threading
import time

from server import SECONDS, Server
from wire import CLOSE, CLOSE_BACK, FAILED_1002, HELLO, HELLO_BACK, NOT_MASKED, REQUEST, RESPONSE, binary

# How often the last bytes must arrive at a client that still sends.
TIMES = 50


def goes_on(server, number, seconds=SECONDS):
    """The server serves another connection, of this number, within so many seconds."""
    began = time.monotonic()
    client = server.client()
    client.send(REQUEST, HELLO, CLOSE)
    assert client.rest() == RESPONSE + HELLO_BACK + CLOSE_BACK
    taken = time.monotonic() - began
    assert taken < seconds, taken
    client.close()
    server.ends(f"{number} clean 1000")


def no_bytes():
    server = Server(2)
    server.client().close()
    assert server.line() == "1 stopped"
    goes_on(server, 2)


def a_reset_before_any_byte():
    server = Server(2)
    server.client().reset()
    assert server.line() == "1 stopped"
    goes_on(server, 2)


def a_reset_in_the_head():
    server = Server(2)
    client = server.client()
    client.send(REQUEST[:-1])
    time.sleep(0.05)
    client.reset()
    assert server.line() == "1 stopped"
    goes_on(server, 2)


def an_end_in_the_head():
    server = Server(2)
    client = server.client()
    client.send(REQUEST[:-1])
    client.half_close()
    assert client.rest() == b""
    assert server.line() == "1 stopped"
    goes_on(server, 2)


def a_reset_in_a_frame():
    server = Server(2)
    client = server.client()
    client.send(REQUEST, HELLO, HELLO[:-1])
    assert client.get(len(RESPONSE + HELLO_BACK)) == RESPONSE + HELLO_BACK
    client.reset()
    assert server.line() == "1 stopped"
    goes_on(server, 2)


def a_reset_while_it_writes():
    server = Server(2, "--limit", "16777216")
    client = server.client()
    client.send(REQUEST, binary(16777216))
    assert client.get(len(RESPONSE)) == RESPONSE
    time.sleep(0.1)
    client.reset()
    assert server.line() == "1 stopped"
    goes_on(server, 2)


def still_sends(end, back, line):
    """A client sends on after what ends its connection, and gets the last bytes, and the stream's end and no reset."""
    server = Server(TIMES)
    for number in range(1, TIMES + 1):
        client = server.client()
        client.send(REQUEST, end, bytes(8000))
        for _ in range(5):
            time.sleep(0.002)
            client.send(bytes(1000))
        got = client.rest()
        assert got == RESPONSE + back, (number, got)
        client.close()
        assert server.line() == f"{number} {line}"
    server.ends()


def sends_on_after_a_fault():
    still_sends(NOT_MASKED, FAILED_1002, "failed MaskWrong")


def sends_on_after_its_close():
    still_sends(CLOSE, CLOSE_BACK, "clean 1000")


# A client is left after two seconds at most; the rest is for a machine that is busy.
IN_TIME = 2.6


def sends_a_little_without_an_end():
    """A client that goes on sending for ever is left in time."""
    server = Server(2)
    client = server.client()
    client.send(REQUEST, CLOSE)
    assert client.rest() == RESPONSE + CLOSE_BACK
    assert server.line() == "1 clean 1000"
    ends = threading.Event()
    sender = threading.Thread(target=sends_until, args=(client, ends, b"\0", 0.02))
    sender.start()
    try:
        goes_on(server, 2, IN_TIME)
    finally:
        ends.set()
        sender.join()


def floods():
    """So is one that sends as much as it can."""
    server = Server(2)
    client = server.client()
    client.send(REQUEST, NOT_MASKED)
    assert client.get(len(RESPONSE + FAILED_1002)) == RESPONSE + FAILED_1002
    assert server.line() == "1 failed MaskWrong"
    ends = threading.Event()
    sender = threading.Thread(target=sends_until, args=(client, ends, bytes(65536), 0))
    sender.start()
    try:
        goes_on(server, 2, IN_TIME)
    finally:
        ends.set()
        sender.join()


def sends_until(client, ends, piece, pause):
    try:
        while not ends.is_set():
            client.send(piece)
            time.sleep(pause)
    except OSError:
        pass


def stays_and_is_silent():
    """A client that neither sends nor ends behind its session is told at once, and left in time."""
    server = Server(2)
    client = server.client()
    client.send(REQUEST, CLOSE)
    assert client.rest() == RESPONSE + CLOSE_BACK
    began = time.monotonic()
    assert server.line() == "1 clean 1000"
    assert time.monotonic() - began < 1
    goes_on(server, 2, IN_TIME)
    client.close()


def ends_soon():
    """A client that ends a little later is left at once."""
    server = Server(2)
    client = server.client()
    client.send(REQUEST, CLOSE)
    assert client.rest() == RESPONSE + CLOSE_BACK
    assert server.line() == "1 clean 1000"
    time.sleep(0.2)
    client.close()
    goes_on(server, 2, 0.5)


def silent_for_too_long():
    """With --timeout a client is told as stopped once it was silent for so long, wherever it is."""
    for sent, back in ((b"", b""), (REQUEST[:-1], b""), (REQUEST, RESPONSE), (REQUEST + HELLO[:-1], RESPONSE)):
        server = Server(2, "--timeout", "1")
        client = server.client()
        client.send(sent)
        began = time.monotonic()
        assert client.rest() == back
        taken = time.monotonic() - began
        assert 0.8 < taken < 2, taken
        assert server.line() == "1 stopped"
        client.close()
        goes_on(server, 2)


def stopped_again_and_again():
    """A server that is stopped and goes on each 10 ms waits no longer for a silent client, nor lets a connection last
    longer."""
    for option in ("--timeout=1", "--deadline=1"):
        server = Server(2, option)
        client = server.client()
        client.send(REQUEST)
        assert client.get(len(RESPONSE)) == RESPONSE
        began = time.monotonic()
        client.stream.settimeout(0.01)
        ended = False
        while not ended and time.monotonic() - began < SECONDS:
            server.process.send_signal(signal.SIGSTOP)
            server.process.send_signal(signal.SIGCONT)
            try:
                ended = client.stream.recv(1) == b""
            except TimeoutError:
                pass
        taken = time.monotonic() - began
        assert ended and 0.8 < taken < 2, taken
        assert server.line() == "1 stopped"
        client.close()
        goes_on(server, 2)


def lasts_too_long():
    """With --deadline a connection ends in time, whatever comes, and is told as stopped."""
    server = Server(2, "--deadline", "1")
    client = server.client()
    client.send(REQUEST)
    assert client.get(len(RESPONSE)) == RESPONSE
    began = time.monotonic()
    try:
        while time.monotonic() - began < SECONDS:
            client.send(HELLO)
            if client.get(len(HELLO_BACK)) != HELLO_BACK:
                break
            time.sleep(0.05)
    except OSError:
        pass
    taken = time.monotonic() - began
    assert 0.8 < taken < 2, taken
    assert server.line() == "1 stopped"
    client.close()
    goes_on(server, 2)


def a_head_that_lasts_too_long():
    """And so before the head is whole."""
    server = Server(2, "--deadline", "1")
    client = server.client()
    began = time.monotonic()
    for byte in REQUEST:
        client.send(bytes([byte]))
        if select.select([client.stream], [], [], 0.05)[0]:
            break
    assert client.rest() == b""
    taken = time.monotonic() - began
    assert 0.8 < taken < 2, taken
    assert server.line() == "1 stopped"
    client.close()
    goes_on(server, 2)


def slow_but_not_silent():
    """A client that sends a byte each half second is none that is silent for a second."""
    server = Server(1, "--timeout", "1")
    client = server.client()
    client.send(REQUEST)
    assert client.get(len(RESPONSE)) == RESPONSE
    for byte in CLOSE:
        time.sleep(0.5)
        client.send(bytes([byte]))
    assert client.rest() == CLOSE_BACK
    server.ends("1 clean 1000")


def takes_nothing_for_too_long():
    """Nor is one waited for that takes no byte of what is sent back."""
    server = Server(2, "--timeout", "1", "--limit", "16777216")
    client = server.client()
    client.stream.setsockopt(socket.SOL_SOCKET, socket.SO_RCVBUF, 65536)
    client.send(REQUEST, binary(16777216))
    assert server.line() == "1 stopped"
    client.close()
    goes_on(server, 2)


TESTS = [
    no_bytes,
    a_reset_before_any_byte,
    a_reset_in_the_head,
    an_end_in_the_head,
    a_reset_in_a_frame,
    a_reset_while_it_writes,
    sends_on_after_a_fault,
    sends_on_after_its_close,
    sends_a_little_without_an_end,
    floods,
    stays_and_is_silent,
    ends_soon,
    silent_for_too_long,
    stopped_again_and_again,
    lasts_too_long,
    a_head_that_lasts_too_long,
    slow_but_not_silent,
    takes_nothing_for_too_long,
]
