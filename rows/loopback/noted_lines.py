"""What `wst send --heads` and `wst send --time` write beside the lines of a run, of servers and of clients, which are
raw sockets here."""

import re
import time

from client_lines import ADDRESS, Listening
from send_lines import GOT_HELLO, SCRIPT, SENT_HELLO, TURN_1, Sent
from server import SECONDS
from wire import BAD_REQUEST, CLOSE_BACK, HELLO, HELLO_BACK, REQUEST, RESPONSE, request_to, with_line

FRAMES = f"{TURN_1}\n{SENT_HELLO}\n{GOT_HELLO}\nend peer\n"
# A text of a server and its line, and the same of a client under a key of zeros.
TEXT = b"\x81\x05Hello"
SENT_TEXT = "> 0 text fin=1 rsv=0 key=- len=5 short 48656c6c6f"
TEXT_BACK = bytes.fromhex("81850000000048656c6c6f")
GOT_TEXT = "< 0 text fin=1 rsv=0 key=00000000 len=5 short 48656c6c6f"
TIMED = re.compile(r"([0-9]+\.[0-9]{3}) (.*)")


def head_lines(mark, head):
    """The lines of a head, each behind this mark."""
    return "".join(f"{mark} {line}\n" for line in head.decode().split("\r\n") if line)


def both_heads(address):
    return head_lines(">", request_to(address)) + head_lines("<", RESPONSE)


def answered(server, response=RESPONSE):
    """The run of the script at a server that answers so, and then as an echo."""
    client = server.accepted(response)
    assert client.get(len(HELLO)) == HELLO
    client.send(HELLO_BACK)
    client.close()


def timed(output):
    """The times of these lines, which don't go back, and the lines without them."""
    found = [TIMED.fullmatch(line).groups() for line in output.splitlines()]
    times = [float(seconds) for seconds, _ in found]
    assert times == sorted(times), times
    return times, "".join(f"{line}\n" for _, line in found)


def output_of(run, status=0, faults=b""):
    output = "".join(f"{line}\n" for line in iter(run.line, ""))
    assert run.process.wait(SECONDS) == status, run.process.returncode
    told = run.process.stderr.read()
    assert told == faults, told
    return output


def heads():
    server = Sent(SCRIPT, "--heads")
    answered(server)
    server.ends(both_heads(server.address) + FRAMES)


def a_head_in_single_bytes():
    """Behind its empty line the first frame begins, in the same piece."""
    server = Sent(SCRIPT, "--heads")
    client = server.accepted(b"")
    for byte in RESPONSE[:-2]:
        client.send(bytes([byte]))
    client.send(RESPONSE[-2:] + HELLO_BACK)
    assert client.get(len(HELLO)) == HELLO
    client.close()
    server.ends(both_heads(server.address) + FRAMES)


def bytes_that_are_not_shown():
    """Whatever is no visible ASCII and no space is `?`."""
    server = Sent(SCRIPT, "--heads")
    odd = with_line(RESPONSE, b"Server: caf\xc3\xa9\tx")
    answered(server, odd)
    shown = head_lines("<", RESPONSE) + "< Server: caf???x\n"
    server.ends(head_lines(">", request_to(server.address)) + shown + FRAMES)


def a_head_that_is_refused():
    server = Sent(SCRIPT, "--heads")
    client = server.accepted(b"HTTP/1.1 403 Forbidden\r\nServer: a\r\n\r\nsecret")
    client.close()
    output = output_of(server, 1, server_refuses(403))
    assert output == head_lines(">", request_to(server.address)) + "< HTTP/1.1 403 Forbidden\n< Server: a\n", output


def server_refuses(status):
    rule = b"  rule A server accepts a connection with the status 101 (RFC 6455 section 4.1)\n"
    return f"FAIL Head Status\n  status {status}\n".encode() + rule


def a_head_that_is_cut():
    """What was read of its last line is shown."""
    server = Sent(SCRIPT, "--heads")
    client = server.next()
    client.send(RESPONSE[:48])
    client.half_close()
    client.rest()
    output = output_of(server, 3, b"no connection: closed before the answer\n")
    assert output == head_lines(">", request_to(server.address)) + head_lines("<", RESPONSE[:48]), output


def a_head_that_never_comes():
    server = Sent(SCRIPT, "--heads", "--timeout=1")
    client = server.next()
    silent = b"no connection: timed out\n  connected, but no complete answer to the request in time\n"
    output = output_of(server, 3, silent)
    assert output == head_lines(">", request_to(server.address)), output
    client.close()


def times():
    """They count from when the connection was begun: that the answer to the request came late is in them."""
    server = Sent(SCRIPT, "--time")
    client = server.next()
    client.get(len(request_to(server.address)))
    time.sleep(0.5)
    client.send(RESPONSE)
    assert client.get(len(HELLO)) == HELLO
    time.sleep(0.5)
    client.send(HELLO_BACK)
    client.close()
    counted, lines = timed(output_of(server))
    assert lines == FRAMES, lines
    assert 0.5 <= counted[0] < 0.9, counted
    assert 1.0 <= counted[2] < 1.5, counted


def times_of_heads():
    """Each line of a head has the time when its first byte passed."""
    server = Sent(SCRIPT, "--time", "--heads")
    client = server.next()
    client.get(len(request_to(server.address)))
    time.sleep(0.5)
    answer = RESPONSE + HELLO_BACK
    client.send(answer)
    assert client.get(len(HELLO)) == HELLO
    client.close()
    counted, lines = timed(output_of(server))
    assert lines == both_heads(server.address) + FRAMES, lines
    asked = len(head_lines(">", request_to(server.address)).splitlines())
    assert counted[asked - 1] < 0.3 and 0.5 <= counted[asked] < 0.9, counted


def a_capture_has_neither():
    server = Sent(SCRIPT, "--capture", "--time", "--heads")
    answered(server)
    server.ends("wst-capture 2\nkey 37fa213d\nturn\n> 818537fa213d7f9f4d5158\n< 810548656c6c6f\nend peer\n")


def payloads_as_text():
    server = Sent(SCRIPT, "--data=text", "--heads")
    answered(server)
    server.ends(both_heads(server.address) + FRAMES.replace("48656c6c6f", '"Hello"'))


def heads_of_a_client():
    """The request is that of the client, and the response that of wst; a client that is refused has its heads too."""
    run = Listening("send", "--heads", ADDRESS, told="faults", text=SCRIPT)
    assert run.asks(b"GET / HTTP/1.0\r\n\r\n") == BAD_REQUEST
    client = run.client("/a")
    assert client.get(len(TEXT)) == TEXT
    client.send(TEXT_BACK)
    client.close()
    lines = (
        "< GET / HTTP/1.0\n"
        + head_lines(">", BAD_REQUEST)
        + head_lines("<", REQUEST.replace(b"/chat", b"/a"))
        + head_lines(">", RESPONSE)
        + f"{TURN_1}\n{SENT_TEXT}\n{GOT_TEXT}\nend tester\n"
    )
    output = "".join(f"{line}\n" for line in iter(run.line, ""))
    assert output == lines, output
    assert run.process.wait(SECONDS) == 0, run.process.returncode


def times_of_a_client():
    """They count from when the client was taken."""
    run = Listening("send", "--time", ADDRESS, told="faults", text=SCRIPT)
    time.sleep(0.7)
    client = run.connected()
    time.sleep(0.5)
    client.send(REQUEST)
    assert client.get(len(RESPONSE)) == RESPONSE
    assert client.get(len(TEXT)) == TEXT
    client.send(TEXT_BACK)
    client.close()
    counted, lines = timed(output_of(run))
    assert lines == f"{TURN_1}\n{SENT_TEXT}\n{GOT_TEXT}\nend tester\n", lines
    # It may be taken a little after it has connected.
    assert 0.4 <= counted[0] < 1.1, counted


TESTS = [
    heads,
    a_head_in_single_bytes,
    bytes_that_are_not_shown,
    a_head_that_is_refused,
    a_head_that_is_cut,
    a_head_that_never_comes,
    times,
    times_of_heads,
    a_capture_has_neither,
    payloads_as_text,
    heads_of_a_client,
    times_of_a_client,
]
