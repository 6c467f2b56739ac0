"""How long `wst` waits for servers that are silent, send what is no progress, send a little without an end, read nothing,
flood it with pongs, or answer while `wst` is stopped; and how long a connection lasts."""

import os
import signal
import subprocess
import threading
import time
from pathlib import Path

from send_lines import NO_ECHO, SCRIPT, SENT_HELLO, TURN_1, Sent
from server import SECONDS, Tested
from wire import EMPTY_TEXT, HELLO, HELLO_BACK, RESPONSE, request_to

TWO_FAIL = "1.1.1 FAIL Messages\n0 pass, 0 loose, 1 fail\n"
SILENT = b"no connection: timed out\n  connected, but no complete answer to the request in time\n"
PING = b"\x89\x00"
SENT_16_MIB = b"binary 00*16777216\n"


class Clock:
    """How long something took, between these seconds."""

    def __init__(self, least, most):
        self.least, self.most = least, most

    def __enter__(self):
        self.begun = time.monotonic()

    def __exit__(self, kind, error, trace):
        took = time.monotonic() - self.begun
        assert kind or self.least <= took <= self.most, f"it took {took:.2f} s"


def keeps_sending(client, front, piece, pause):
    """Sends a front, and then a piece after each pause, until the other end is gone."""

    def send():
        try:
            client.send(front)
            while True:
                time.sleep(pause)
                client.send(piece)
        except OSError:
            pass

    threading.Thread(target=send, daemon=True).start()


def met(server, bytes_of_turn=EMPTY_TEXT):
    """The server's end of the next connection, which was answered, and whose first turn has come."""
    client = server.next()
    asked = request_to(server.address)
    assert client.get(len(asked)) == asked
    client.send(RESPONSE)
    assert client.get(len(bytes_of_turn)) == bytes_of_turn
    return client


def pings_are_no_progress():
    """A wait that each ping began anew would never end."""
    server = Tested("--timeout=1", "1.1.1")
    client = met(server)
    with Clock(1.9, 4):
        keeps_sending(client, PING, PING, 0.3)
        server.ends(TWO_FAIL, status=1)


def bytes_of_a_frame_are_progress():
    """Nothing but the deadline ends a case in which a byte comes now and then."""
    server = Tested("--timeout=1", "--deadline=3", "1.1.1")
    client = met(server)
    with Clock(2.5, 4.5):
        keeps_sending(client, b"\x81\x7e\x01\x00", b"a", 0.3)
        server.ends(TWO_FAIL.replace("Messages", "NotFrames"), status=1)


def a_wait_is_not_that_of_a_read():
    """Bytes that are no progress leave a wait what is left of it."""
    server = Sent(SCRIPT, "--timeout=2")
    client = server.accepted(RESPONSE)
    assert client.get(len(HELLO)) == HELLO
    with Clock(1.8, 3):
        time.sleep(1.5)
        client.send(PING)
        lines = f"{TURN_1}\n{SENT_HELLO}\n< 0 ping fin=1 rsv=0 key=- len=0 short -\nend tester\n"
        server.ends(lines, faults=NO_ECHO)


def pongs_that_no_open_ping_asked_for():
    """Each is told by itself: 200,000 of them while as many pings are open take a few seconds."""
    pings = b"".join(b'ping "%d"\n' % number for number in range(100_000, 300_000))
    pongs = b"".join(b"\x8a\x06%d" % number for number in range(300_000, 500_000))
    server = Sent(pings + SCRIPT, "--timeout=9", stdout=subprocess.DEVNULL)
    client = server.accepted(RESPONSE)
    with Clock(0, 9):
        assert client.get(200_000 * 12 + len(HELLO)).endswith(HELLO)
        client.send(pongs)
        client.send(HELLO_BACK)
        client.close()
        assert server.process.wait(SECONDS) == 0


def a_write_that_is_blocked():
    """It fails after the time limit, which begins anew with what the system takes of it, and the wait behind it has
    nothing left."""
    server = Sent(SENT_16_MIB, "--timeout=2")
    client = server.accepted(RESPONSE)
    taken, since = 0, time.monotonic()
    while server.process.poll() is None:
        now = unread_at(server.listener)
        if now > taken + 1:  # the end of a direction counts as one
            taken, since = now, time.monotonic()
        time.sleep(0.02)
    took = time.monotonic() - since
    assert 1.8 < took < 3, f"it took {took:.2f} s"
    assert taken > 65536, taken
    assert server_lines(server)[-1] == "end broken"
    assert server.process.wait(SECONDS) == 0
    client.close()


def unread_at(listener):
    """How many bytes the system has taken for connections to this listener that their end here hasn't read."""
    port = f":{listener.getsockname()[1]:04X}"
    unread = 0
    for row in Path("/proc/net/tcp").read_text().splitlines()[1:]:
        local, remote, _, queues = row.split()[1:5]
        sent, got = (int(queue, 16) for queue in queues.split(":"))
        unread += sent if remote.endswith(port) else got if local.endswith(port) else 0
    return unread


def server_lines(server):
    """All lines that it writes."""
    return list(iter(server.line, ""))


def a_deadline_at_a_silent_server():
    """Without --timeout it ends the case by the tester."""
    server = Tested("--deadline=2", "1.1.1")
    client = met(server)
    with Clock(1.5, 3):
        server.ends(TWO_FAIL, status=1)
    client.close()


def a_deadline_in_the_head():
    server = Tested("--deadline=1", "1.1.1")
    client = server.next()
    keeps_sending(client, b"HTTP/1.1 101 ", b"a", 0.2)
    with Clock(0.5, 2):
        server.ends("1.1.1 no connection\n", status=3, faults=SILENT)


def a_deadline_before_the_time_limit():
    """By then nothing was waited for long enough: it is broken off."""
    server = Sent(SCRIPT, "--timeout=9", "--deadline=1")
    client = server.accepted(RESPONSE)
    assert client.get(len(HELLO)) == HELLO
    with Clock(0.5, 2):
        server.ends(f"{TURN_1}\n{SENT_HELLO}\nend broken\n")
    client.close()


def a_deadline_in_a_write():
    server = Sent(SENT_16_MIB, "--timeout=9", "--deadline=1")
    client = server.accepted(RESPONSE)
    with Clock(0.5, 2):
        lines = server_lines(server)
        assert lines[-1] == "end broken", lines
    client.close()


def a_stop_in_a_wait():
    """A wait that a stop interrupts has what is left of it."""
    server = Sent(SCRIPT, "--timeout=2")
    client = server.accepted(RESPONSE)
    assert client.get(len(HELLO)) == HELLO
    with Clock(1.8, 3):
        for _ in range(3):
            time.sleep(0.4)
            stop(server)
            server.process.send_signal(signal.SIGCONT)
        server.ends(f"{TURN_1}\n{SENT_HELLO}\nend tester\n", faults=NO_ECHO)
    client.close()


def an_answer_during_a_stop():
    """What has come while it was stopped, for longer than the limit, is read."""
    server = Sent(SCRIPT, "--timeout=1")
    client = server.accepted(RESPONSE)
    assert client.get(len(HELLO)) == HELLO
    time.sleep(0.3)
    stop(server)
    client.send(HELLO_BACK)
    client.close()
    time.sleep(1.5)
    server.process.send_signal(signal.SIGCONT)
    server.ends(f"{TURN_1}\n{SENT_HELLO}\n< 0 text fin=1 rsv=0 key=- len=5 short 48656c6c6f\nend peer\n")


def stop(server):
    """Stops a run, and waits until it is stopped."""
    server.process.send_signal(signal.SIGSTOP)
    os.waitid(os.P_PID, server.process.pid, os.WSTOPPED)


TESTS = [
    pings_are_no_progress,
    bytes_of_a_frame_are_progress,
    a_wait_is_not_that_of_a_read,
    pongs_that_no_open_ping_asked_for,
    a_write_that_is_blocked,
    a_deadline_at_a_silent_server,
    a_deadline_in_the_head,
    a_deadline_before_the_time_limit,
    a_deadline_in_a_write,
    a_stop_in_a_wait,
    an_answer_during_a_stop,
]
