"""What `wst serve` writes, when, and how it ends."""

import fcntl
import os
import socket

from server import SECONDS, Client, Running, Server, connected, free_port, run, start
from wire import BAD_REQUEST, CLOSE, CLOSE_BACK, HELLO, HELLO_BACK, NAMES_CHAT, NAMES_SUPERCHAT, OFFERING, REQUEST, RESPONSE

NO_ADDRESSES = ("127.0.0.1", "127.0.0.1:", "127.0.0.1:65536", "127.0.0.1:x", ":", "", "[::1]", "no.such.host.invalid:9")


def no_connections():
    Server(0).ends()


def a_line_a_connection():
    server = Server(3)
    refused = server.client()
    refused.send(b"GET / HTTP/1.1\r\nHost: x\r\n\r\n")
    assert refused.rest() == BAD_REQUEST
    assert server.line() == "1 refused Upgrade"
    stopped = server.client()
    stopped.half_close()
    assert stopped.rest() == b""
    assert server.line() == "2 stopped"
    closed = server.client()
    closed.send(REQUEST, CLOSE)
    assert closed.rest() == RESPONSE + CLOSE_BACK
    server.ends("3 clean 1000")
    assert server.refuses()


def each_address():
    hosts = ["127.0.0.1", "localhost"]
    if has_version_6():
        hosts.append("[::1]")
    for host in hosts:
        server = Server(1, host=host)
        client = server.client()
        client.send(REQUEST, HELLO, CLOSE)
        assert client.rest() == RESPONSE + HELLO_BACK + CLOSE_BACK, host
        server.ends("1 clean 1000")


def a_port_that_the_system_chooses():
    for address in ("127.0.0.1:0", "localhost:0", "127.0.0.1:00", "localhost:+0", "localhost:+000"):
        host = address.partition(":")[0]
        server = Running()
        server.process = start("serve", address, "1")
        told, _, port = server.line().rpartition(":")
        assert told == f"listening on {host}" and 0 < int(port) < 65536, (told, port)
        client = Client(connected(int(port)))
        client.send(REQUEST, CLOSE)
        assert client.rest() == RESPONSE + CLOSE_BACK
        assert (server.line(), server.line()) == ("1 clean 1000", "")
        assert server.process.wait(SECONDS) == 0


def has_version_6():
    try:
        with socket.socket(socket.AF_INET6) as probe:
            probe.bind(("::1", 0))
    except OSError:
        return False
    return True


def a_port_in_use():
    server = Server(1)
    assert run("serve", server.address, "1") == (3, b"", b"not listening: address in use\n")
    client = server.client()
    client.send(REQUEST, CLOSE)
    assert client.rest() == RESPONSE + CLOSE_BACK
    server.ends("1 clean 1000")


def an_address_that_is_none():
    for address in NO_ADDRESSES:
        assert run("serve", address, "1") == (3, b"", b"not listening: no such host\n  HOST:PORT to listen at, up to 65535: localhost:9001\n"), address


def an_address_of_another_machine():
    """An address that is kept for documents (RFC 5737), which no machine has."""
    assert run("serve", "192.0.2.1:9001", "1") == (3, b"", b"not listening: failed\n")


def limits_that_a_server_cannot_have():
    for limit in ("0", "16777217", "4294967297"):
        assert run("serve", "--limit", limit, "127.0.0.1:1", "1") == (2, b"", b"bad limits\n"), limit


def limits_of_time_that_are_none():
    for seconds in ("", "0", "01", "3601", "99999999999999999999", "+1", "-1", "1.5", "s", " 1"):
        told = run("serve", f"--timeout={seconds}", "--limit", "0", "127.0.0.1:1", "1")
        assert told == (2, b"", b"bad timeout\n  a whole number of seconds, 1 to 3600: --timeout 5\n"), seconds
    told = (2, b"", b"bad timeout\n  seconds without a unit: --timeout 5\n")
    for seconds in ("1s", "500ms"):
        assert run("serve", "--timeout", seconds, "--limit", "0", "127.0.0.1:1", "1") == told, seconds
    for seconds in ("1", "3600"):
        assert run("serve", "--timeout", seconds, "--limit", "0", "127.0.0.1:1", "1") == (2, b"", b"bad limits\n")
    for seconds in ("", "0", "01", "86401", "none", "-1", "1.5"):
        told = run("serve", f"--deadline={seconds}", "--limit", "0", "127.0.0.1:1", "1")
        assert told == (2, b"", b"bad timeout\n  a whole number of seconds, 1 to 86400: --deadline 60\n"), seconds
    told = (2, b"", b"bad timeout\n  seconds without a unit: --deadline 60\n")
    assert run("serve", "--deadline", "1m", "--limit", "0", "127.0.0.1:1", "1") == told
    for seconds in ("1", "86400"):
        assert run("serve", "--deadline", seconds, "--limit", "0", "127.0.0.1:1", "1") == (2, b"", b"bad limits\n")


def subprotocols():
    for known, response in (
        ("chat,superchat", NAMES_SUPERCHAT),
        ("superchat,chat", NAMES_SUPERCHAT),
        ("soap,chat", NAMES_CHAT),
        ("soap", RESPONSE),
    ):
        server = Server(1, "--protocols", known)
        client = server.client()
        client.send(OFFERING, HELLO, CLOSE)
        assert client.rest() == response + HELLO_BACK + CLOSE_BACK, known
        server.ends("1 clean 1000")


def a_bad_list_before_all_else():
    for names in ("", "chat,chat", "a/b", "chat,"):
        words = ("serve", "--limit", "0", "--timeout", "0", "--protocols", names, "127.0.0.1:1", "1")
        assert run(*words) == (2, b"", b"bad protocol list\n  up to 16 different names, joined by commas: --protocols chat,echo\n"), names


def the_first_line_can_not_be_written():
    with open("/dev/full", "wb") as full:
        process = start("serve", "127.0.0.1:0", "1", stdout=full)
        assert process.wait(SECONDS) == 3
    assert process.stderr.read() == b""


def a_line_that_nobody_reads():
    """A line waits for its reader, and the client doesn't: its stream has ended before."""
    port = free_port()
    first = f"listening on 127.0.0.1:{port}\n".encode()
    output, pipe = os.pipe()
    room = fcntl.fcntl(pipe, fcntl.F_SETPIPE_SZ, 4096)
    os.write(pipe, bytes(room - len(first)))
    process = start("serve", f"127.0.0.1:{port}", "1", stdout=pipe)
    os.close(pipe)
    client = Client(connected(port))
    client.send(REQUEST, CLOSE)
    assert client.rest() == RESPONSE + CLOSE_BACK
    assert process.poll() is None
    client.close()
    with os.fdopen(output, "rb") as lines:
        assert lines.read().lstrip(b"\0") == first + b"1 clean 1000\n"
    assert process.wait(SECONDS) == 0


def a_line_can_not_be_written():
    server = Server(2)
    server.process.stdout.close()
    client = server.client()
    client.send(REQUEST, CLOSE)
    assert client.rest() == RESPONSE + CLOSE_BACK
    assert server.process.wait(SECONDS) == 3, server.process.returncode
    assert server.process.stderr.read() == b""
    assert server.refuses()


TESTS = [
    no_connections,
    a_line_a_connection,
    each_address,
    a_port_that_the_system_chooses,
    a_port_in_use,
    an_address_that_is_none,
    an_address_of_another_machine,
    limits_that_a_server_cannot_have,
    limits_of_time_that_are_none,
    subprotocols,
    a_bad_list_before_all_else,
    the_first_line_can_not_be_written,
    a_line_that_nobody_reads,
    a_line_can_not_be_written,
]
