"""A run of `wst` that is stopped and goes on while it waits, with a limit of time where it has one: each wait is
interrupted by that, and is made again."""

import os
import signal
import time

from client_lines import ADDRESS, CLOSE as CLOSE_OF_SERVER, CLOSE_BACK as CLOSE_OF_CLIENT
from client_lines import EMPTY_BACK as EMPTY_OF_CLIENT, EMPTY_TEXT as EMPTY_OF_SERVER, Listening, request_for
from send_lines import BY_TURNS, WITH_CLOSE, Sent
from server import SECONDS, Server, Tested
from sweep_lines import Swept
from tap_lines import ANSWERED, ASKED, HEARD, SAID, Tap
from wire import CLOSE, CLOSE_BACK, EMPTY_BACK, EMPTY_TEXT, HELLO, HELLO_BACK, MASKED_CLOSE, REQUEST, RESPONSE
from wire import request_to

# Longer than `send` waits without an option.
LIMIT = "--timeout=30"


def state_of(process):
    """What the system says of a process: S where it waits."""
    with open(f"/proc/{process.pid}/stat", encoding="ascii") as stat:
        return stat.read().rpartition(")")[2].split()[0]


def stop_and_go_on(process):
    """Stops a process where it waits, and lets it go on: three times, since a wait that is made again is one too."""
    for _ in range(3):
        until = time.monotonic() + SECONDS
        while state_of(process) != "S":
            assert time.monotonic() < until, "it does not wait"
            time.sleep(0.01)
        time.sleep(0.05)
        process.send_signal(signal.SIGSTOP)
        os.waitid(os.P_PID, process.pid, os.WSTOPPED)
        process.send_signal(signal.SIGCONT)


def a_server_that_answers_late():
    server = Tested(LIMIT, "1.1.1")
    client = server.next()
    asked = request_to(server.address)
    assert client.get(len(asked)) == asked
    stop_and_go_on(server.process)
    client.send(RESPONSE)
    assert client.get(len(EMPTY_TEXT)) == EMPTY_TEXT
    stop_and_go_on(server.process)
    time.sleep(2)
    client.send(EMPTY_BACK)
    assert client.get(len(MASKED_CLOSE)) == MASKED_CLOSE
    stop_and_go_on(server.process)
    client.send(CLOSE_BACK)
    client.close()
    server.ends("1.1.1 PASS\n1 pass, 0 loose, 0 fail\n")


def a_script_that_is_answered_late():
    server = Sent(WITH_CLOSE, LIMIT)
    client = server.accepted(RESPONSE)
    assert client.get(len(HELLO)) == HELLO
    stop_and_go_on(server.process)
    client.send(HELLO_BACK)
    assert client.get(len(MASKED_CLOSE)) == MASKED_CLOSE
    stop_and_go_on(server.process)
    client.send(CLOSE_BACK)
    client.close()
    server.ends(BY_TURNS)


def a_client_that_is_served():
    server = Server(1, LIMIT)
    client = server.client()
    stop_and_go_on(server.process)
    client.send(REQUEST[:40])
    stop_and_go_on(server.process)
    client.send(REQUEST[40:])
    assert client.get(len(RESPONSE)) == RESPONSE
    stop_and_go_on(server.process)
    client.send(HELLO)
    assert client.get(len(HELLO_BACK)) == HELLO_BACK
    client.send(CLOSE)
    assert client.rest() == CLOSE_BACK
    server.ends("1 clean 1000")


def a_client_under_test():
    run = Listening("test", LIMIT, ADDRESS, "1.1.1")
    client = run.connected()
    stop_and_go_on(run.process)
    client.send(request_for("/"))
    assert client.get(len(RESPONSE)) == RESPONSE
    assert client.get(len(EMPTY_OF_SERVER)) == EMPTY_OF_SERVER
    stop_and_go_on(run.process)
    client.send(EMPTY_OF_CLIENT)
    assert client.get(len(CLOSE_OF_SERVER)) == CLOSE_OF_SERVER
    client.send(CLOSE_OF_CLIENT)
    assert client.rest() == b""
    client.close()
    run.ends("1.1.1 PASS", "1 pass, 0 loose, 0 fail")


def a_sweep_that_is_answered_late():
    server = Swept(LIMIT, "--steps=0")
    client = server.next()
    asked = request_to(server.address)
    assert client.get(len(asked)) == asked
    stop_and_go_on(server.process)
    client.send(RESPONSE)
    assert client.get(len(MASKED_CLOSE)) == MASKED_CLOSE
    stop_and_go_on(server.process)
    client.send(CLOSE_BACK)
    client.close()
    server.ends("1 scripts: 1 pass, 0 loose, 0 fail\n")


def a_connection_that_is_tapped():
    """It waits for a client, for a byte of either end, and for one end once the other has ended."""
    tap = Tap()
    stop_and_go_on(tap.process)
    client, server = tap.pair()
    stop_and_go_on(tap.process)
    client.send(REQUEST)
    assert server.get(len(REQUEST)) == REQUEST
    stop_and_go_on(tap.process)
    server.send(RESPONSE)
    assert client.get(len(RESPONSE)) == RESPONSE
    client.send(HELLO)
    assert server.get(len(HELLO)) == HELLO
    stop_and_go_on(tap.process)
    server.send(HELLO_BACK)
    assert client.get(len(HELLO_BACK)) == HELLO_BACK
    client.half_close()
    assert server.rest() == b""
    stop_and_go_on(tap.process)
    server.send(HELLO_BACK)
    server.close()
    assert client.rest() == HELLO_BACK
    client.close()
    tap.tells(ASKED, ANSWERED, SAID, HEARD, HEARD.replace("0", "7", 1), "end client")
    tap.ends()


TESTS = [
    a_server_that_answers_late,
    a_script_that_is_answered_late,
    a_client_that_is_served,
    a_client_under_test,
    a_sweep_that_is_answered_late,
    a_connection_that_is_tapped,
]
