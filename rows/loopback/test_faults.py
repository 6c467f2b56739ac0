"""Servers that `wst test` meets and that go away, answer something else or nothing."""

import select
import socket
import time

from server import SECONDS, Server, Tested, max_resident, run
from test_lines import passes
from wire import CLOSE_BACK, EMPTY_BACK, EMPTY_TEXT, FAILED_1002, MASKED_CLOSE, RESPONSE, request_to

CLOSED = b"no connection: closed before the answer\n"
SILENT = b"no connection: timed out\n  connected, but no complete answer to the request in time\n"

STILL = b"still waiting: 1.1.1 (--timeout SECONDS ends a wait)\n"

# The first byte of the case 5.11: a continuation, where no message is under way.
FIRST_OF_5_11 = b"\x80"

# The length of the ping of the case 2.6, which is sent byte by byte: a header of six bytes, and 125.
PING_OF_2_6 = 131

# An empty binary message, where an empty text is due, and what is told of it.
EMPTY_BINARY = b"\x82\x00"
EXPLAINED = """1.1.1 PASS
1.1.1 FAIL Messages
  due 1 text -
  due 2 close 1000
  got 1 binary -
  end tester 2
  rule An echo sends back each message, in order, with its kind and payload (ours; RFC 6455 sections 5.4 and 5.6 \
define a message); after a violation nothing is sent back, and messages just before it may be missing
1 pass, 0 loose, 1 fail
"""

# A text of two characters, where an empty one is due, and what is told of it by a style of payloads.
OTHER_TEXT = b'\x81\x03\xc3\xbc"'
STYLED = """1.1.1 FAIL Messages
  due 1 text {}
  due 2 close 1000
  got 1 text {}
  end tester 2
  rule An echo sends back each message, in order, with its kind and payload (ours; RFC 6455 sections 5.4 and 5.6 \
define a message); after a violation nothing is sent back, and messages just before it may be missing
0 pass, 0 loose, 1 fail
"""

EMPTY_PONG = b"\x8a\x00"

LARGE = b"HTTP/1.1 101 Switching Protocols\r\nX: " + b"a" * 9000


def closes_at_once():
    server = Tested("1.1.1", "1.1.1")
    passes(server)
    assert server.line() == "1.1.1 PASS"
    server.next().close()
    server.ends("1.1.1 no connection\n", status=3, faults=CLOSED)


def closes_in_the_head():
    server = Tested("1.1.1")
    client = server.next()
    client.send(RESPONSE[:-1])
    client.close()
    server.ends("1.1.1 no connection\n", status=3, faults=CLOSED)


def resets_in_the_head():
    server = Tested("1.1.1")
    client = server.next()
    assert client.get(4) == b"GET "
    client.reset()
    server.ends("1.1.1 no connection\n", status=3, faults=CLOSED)


def resets_in_mid_case():
    server = Tested("1.1.1", "1.1.1")
    client = server.next()
    client.send(RESPONSE)
    sent = request_to(server.address) + EMPTY_TEXT
    assert client.get(len(sent)) == sent
    client.reset()
    assert server.line() == "1.1.1 FAIL Messages"
    passes(server)
    server.ends("1.1.1 PASS\n1 pass, 0 loose, 1 fail\n", status=1)


def ends_in_a_frame():
    server = Tested("1.1.1")
    client = server.next()
    client.send(RESPONSE, b"\x81")
    client.half_close()
    server.ends("1.1.1 FAIL NotFrames\n0 pass, 0 loose, 1 fail\n", status=1)


def sends_a_fault_and_waits():
    """A server whose bytes are at fault keeps the test waiting no longer, whatever it does next."""
    server = Tested("1.1.1", "1.1.1")
    client = server.next()
    client.send(RESPONSE, b"\x83\x00")
    assert server.line() == "1.1.1 FAIL NotFrames"
    client.close()
    passes(server)
    server.ends("1.1.1 PASS\n1 pass, 0 loose, 1 fail\n", status=1)


def closes_first_and_waits():
    """Nothing is sent to a server that closes at once: the own direction is ended."""
    server = Tested("1.1.1")
    client = server.next()
    client.send(RESPONSE, CLOSE_BACK)
    assert client.rest() == request_to(server.address)
    client.close()
    server.ends("1.1.1 FAIL Close\n0 pass, 0 loose, 1 fail\n", status=1)


def fails_at_the_first_byte():
    """A server that fails the connection at the first byte of a wrong frame, and resets it soon or late, does right:
    the bytes of the frame that are still under way break the tester's writes (RFC 6455 sections 5.4 and 7.1.7)."""
    for pause in (0, 0, 0, 0, 0.001, 0.05):
        server = Tested("5.11")
        client = server.next()
        client.send(RESPONSE)
        sent = request_to(server.address) + FIRST_OF_5_11
        assert client.get(len(sent)) == sent
        client.send(FAILED_1002)
        time.sleep(pause)
        client.reset()
        server.ends("5.11 LOOSE BrokenEnd\n0 pass, 1 loose, 0 fail\n")


def unlawful_and_waits():
    """Nor does one whose frame is masked, whose pong nobody asked for comes where a message is owed, that closes with
    its head, so that nothing is sent, or that goes on behind its close. Only one that owes something keeps the test
    waiting, and no longer than its limit of time."""
    for sent, verdict in (
        (b"\x81\x80\0\0\0\0", "NotFrames"),
        (b"\x8a\x01q", "Messages"),
        (CLOSE_BACK, "Close"),
        (CLOSE_BACK + EMPTY_BACK, "NotFrames"),
    ):
        server = Tested("--timeout=1", "1.1.1")
        client = server.next()
        began = time.monotonic()
        client.send(RESPONSE, sent)
        server.ends(f"1.1.1 FAIL {verdict}\n0 pass, 0 loose, 1 fail\n", status=1)
        assert time.monotonic() - began < 3
        client.close()


def garbage_for_a_head():
    for answer, name in (
        (b"\x00\x01\x02\r\n\r\n", "Head"),
        (RESPONSE.replace(b"101", b"200"), "Status"),
        (RESPONSE.replace(b"s3pP", b"t3pP"), "Accept"),
        (LARGE, "TooLarge"),
    ):
        server = Tested("1.1.1")
        client = server.next()
        client.send(answer)
        server.ends(f"1.1.1 FAIL Head {name}\n0 pass, 0 loose, 1 fail\n", status=1)


def explained():
    """Below the line of a server that sends a text back as binary stands why it fails, and nothing below a pass."""
    server = Tested("--explain", "1.1.1", "1.1.1")
    passes(server)
    client = server.next()
    client.send(RESPONSE)
    sent = request_to(server.address) + EMPTY_TEXT
    assert client.get(len(sent)) == sent
    client.send(EMPTY_BINARY)
    assert client.get(len(MASKED_CLOSE)) == MASKED_CLOSE
    client.send(CLOSE_BACK)
    client.close()
    server.ends(EXPLAINED, status=1)


def explained_in_styles():
    """With `--data`, payloads below a verdict are told as text, or all of them."""
    for style, due, got in (("hex", "-", "c3bc22"), ("text", '""', '"ü\\""'), ("all", "-", "c3bc22")):
        server = Tested("--explain", f"--data={style}", "1.1.1")
        client = server.next()
        client.send(RESPONSE)
        sent = request_to(server.address) + EMPTY_TEXT
        assert client.get(len(sent)) == sent
        client.send(OTHER_TEXT)
        assert client.get(len(MASKED_CLOSE)) == MASKED_CLOSE
        client.send(CLOSE_BACK)
        client.close()
        server.ends(STYLED.format(due, got), status=1)


def never_answers():
    """A server that neither answers nor ends keeps the test waiting; when it goes away the test goes on."""
    server = Tested("1.1.1", "1.1.1")
    client = server.next()
    assert server.says_nothing_for(0.3) and server.process.poll() is None
    client.send(RESPONSE)
    assert server.says_nothing_for(0.3) and server.process.poll() is None
    client.reset()
    assert server.line() == "1.1.1 FAIL Messages"
    passes(server)
    server.ends("1.1.1 PASS\n1 pass, 0 loose, 1 fail\n", status=1)


def silent_in_the_head():
    """A server that sends no byte of its answer for so long, or no further one."""
    for sent in (b"", RESPONSE[:40], RESPONSE[:-1]):
        server = Tested("--timeout=1", "1.1.1")
        client = server.next()
        client.send(sent)
        began = time.monotonic()
        server.ends("1.1.1 no connection\n0 pass, 0 loose, 1 fail\n", status=1, faults=SILENT)
        assert 0.8 < time.monotonic() - began < 2
        client.close()


def silent_behind_the_head():
    """Each turn is sent all the same, and what the server owes is missing."""
    server = Tested("--timeout=1", "1.1.1")
    client = server.next()
    client.send(RESPONSE)
    sent = request_to(server.address) + EMPTY_TEXT + MASKED_CLOSE
    assert client.get(len(sent)) == sent
    server.ends("1.1.1 FAIL Messages\n0 pass, 0 loose, 1 fail\n", status=1)
    client.close()


def silent_in_the_last_turn():
    server = Tested("--timeout=1", "1.1.1")
    client = server.next()
    client.send(RESPONSE, EMPTY_BACK)
    sent = request_to(server.address) + EMPTY_TEXT + MASKED_CLOSE
    assert client.get(len(sent)) == sent
    server.ends("1.1.1 FAIL Close\n0 pass, 0 loose, 1 fail\n", status=1)
    client.close()


def silent_in_a_frame():
    server = Tested("--timeout=1", "1.1.1")
    client = server.next()
    client.send(RESPONSE, EMPTY_BACK[:1])
    server.ends("1.1.1 FAIL NotFrames\n0 pass, 0 loose, 1 fail\n", status=1)
    client.close()


def silent_for_ten_seconds_without_a_limit_of_ours():
    """Without --timeout a wait lasts ten seconds."""
    server = Tested("1.1.1")
    client = server.next()
    client.send(RESPONSE, EMPTY_BACK)
    sent = request_to(server.address) + EMPTY_TEXT + MASKED_CLOSE
    assert client.get(len(sent)) == sent
    begun = time.monotonic()
    assert not select.select([server.process.stdout], [], [], 9.5)[0]
    assert server.line() == "1.1.1 FAIL Close"
    assert time.monotonic() - begun < 15
    server.ends("0 pass, 0 loose, 1 fail\n", status=1)
    client.close()


def silent_for_more_than_ten_seconds():
    """It is told once that the run waits, and then waited on."""
    server = Tested("--timeout=none", "1.1.1", "1.1.1")
    client = server.next()
    asked = request_to(server.address)
    assert client.get(len(asked)) == asked
    client.send(RESPONSE)
    assert client.get(len(EMPTY_TEXT)) == EMPTY_TEXT
    faults = server.process.stderr
    assert not select.select([faults, server.process.stdout], [], [], 9)[0]
    assert select.select([faults], [], [], SECONDS)[0]
    assert faults.readline() == STILL
    time.sleep(0.5)
    client.send(EMPTY_BACK)
    assert client.get(len(MASKED_CLOSE)) == MASKED_CLOSE
    client.send(CLOSE_BACK)
    client.close()
    passes(server)
    server.ends("1.1.1 PASS\n1.1.1 PASS\n2 pass, 0 loose, 0 fail\n")


def ends_soon(server, verdict):
    """The only case has this verdict long before its limit of time."""
    began = time.monotonic()
    server.ends(f"1.1.1 {verdict}\n0 pass, 0 loose, 1 fail\n", status=1)
    assert time.monotonic() - began < 4


def another_message_is_not_waited_behind():
    """A message that differs from the one that is due can't become it: nothing more is waited for."""
    server = Tested("--timeout=8", "1.1.1")
    client = server.next()
    client.send(RESPONSE, EMPTY_BINARY)
    ends_soon(server, "FAIL Messages")
    client.close()


def an_unowed_message_is_not_waited_behind():
    """Nor can what is due come behind a message that isn't."""
    server = Tested("--timeout=8", "1.1.1")
    client = server.next()
    client.send(RESPONSE, EMPTY_BACK, EMPTY_BACK)
    ends_soon(server, "FAIL Messages")
    client.close()


def a_pong_without_a_ping_is_not_waited_behind():
    """All messages are there, and a pong for which there was no ping."""
    server = Tested("--timeout=8", "1.1.1")
    client = server.next()
    client.send(RESPONSE, EMPTY_BACK, EMPTY_PONG)
    ends_soon(server, "FAIL Pongs")
    client.close()


def stays_behind_its_close():
    """A server that closes the handshake and not the connection is to end it (RFC 6455 section 7.1.1)."""
    server = Tested("--timeout=1", "1.1.1")
    client = server.next()
    client.send(RESPONSE, EMPTY_BACK)
    sent = request_to(server.address) + EMPTY_TEXT + MASKED_CLOSE
    assert client.get(len(sent)) == sent
    client.send(CLOSE_BACK)
    assert client.rest() == b""
    server.ends("1.1.1 FAIL End\n0 pass, 0 loose, 1 fail\n", status=1)
    client.close()


def a_byte_each_half_second():
    """A server that sends a little is none that is silent."""
    server = Tested("--timeout=1", "1.1.1")
    client = server.next()
    for byte in (RESPONSE[:-2], RESPONSE[-2:-1], RESPONSE[-1:], EMPTY_BACK[:1], EMPTY_BACK[1:]):
        client.send(byte)
        time.sleep(0.5)
    sent = request_to(server.address) + EMPTY_TEXT + MASKED_CLOSE
    assert client.get(len(sent)) == sent
    for byte in CLOSE_BACK:
        client.send(bytes([byte]))
        time.sleep(0.5)
    client.close()
    server.ends("1.1.1 PASS\n1 pass, 0 loose, 0 fail\n")


def sends_without_an_end():
    """No more is read of a server in a case than the budget says."""
    server = Tested("--budget=1000000", "1.1.1", "1.1.1")
    client = server.next()
    client.send(RESPONSE)
    try:
        while True:
            client.send(b"\x89\x00" * 32768)
    except OSError:
        client.close()
    assert server.line().startswith("1.1.1 FAIL ")
    passes(server)
    server.ends("1.1.1 PASS\n1 pass, 0 loose, 1 fail\n", status=1)


def floods_a_case():
    """One that sends as much as it can, messages or pings, costs little more memory than the bytes that are read of it.
    A run whose FAIL is certain ends at the first pause in what is sent, which comes on a machine that is busy: one of
    ten runs has to read all that the budget allows. Each call sends more than that, so that the system sends on."""
    messages, pings = (b"\x82\x7e\xff\xff" + bytes(65535)) * 300, (b"\x89\x7d" + bytes(125)) * 150_000
    for frames in (messages, pings):
        assert any(resident_of_a_flood(frames) > 16_777_216 for _ in range(10))


def resident_of_a_flood(frames):
    """How much memory a run holds at most that is sent these without end. It is looked at while the next case waits,
    with the last of these bytes."""
    server = Tested("--budget=16777216", "1.1.1", "1.1.1")
    client = server.next()
    client.send(RESPONSE)
    try:
        while True:
            client.send(frames)
    except OSError:
        client.close()
    assert server.line() == "1.1.1 FAIL Messages"
    most = max_resident(server.process.pid)
    assert most < 80_000_000, most
    passes(server)
    server.ends("1.1.1 PASS\n1 pass, 0 loose, 1 fail\n", status=1)
    return most


def each_piece_goes_out_at_once():
    """What is sent in pieces is not held back until the server acknowledges the first: one that delays that, as Linux
    does by at least 40 ms, has the whole turn at once. The quickest of ten runs counts, on a machine that is busy."""
    assert min(time_of_the_pieces() for _ in range(10)) < 0.02


def time_of_the_pieces():
    """How long the bytes of a frame are on their way that is sent byte by byte, between the first and the last one."""
    server = Tested("2.6")
    client = server.next()
    client.stream.setsockopt(socket.IPPROTO_TCP, socket.TCP_QUICKACK, 0)
    client.get(len(request_to(server.address)))
    client.send(RESPONSE)
    client.get(1)
    began = time.monotonic()
    assert len(client.get(PING_OF_2_6 - 1)) == PING_OF_2_6 - 1
    taken = time.monotonic() - began
    client.reset()
    assert server.line().startswith("2.6 FAIL")
    return taken


def takes_no_connection():
    """A connection that is not made in time: the queue of the listener is full."""
    server = Tested("--timeout=1", "1.1.1", backlog=0, waiting=4)
    late = b"no connection: timed out\n"
    server.ends("1.1.1 no connection\n0 pass, 0 loose, 1 fail\n", status=1, faults=late)


def two_in_a_row():
    """With --timeout a run goes on where there is no connection."""
    server = Tested("--timeout=2", *["1.1.1"] * 6)
    for closes in (True, True, False, True, True, False):
        if closes:
            server.next().close()
        else:
            passes(server)
    lines = "1.1.1 no connection\n1.1.1 no connection\n1.1.1 PASS\n" * 2
    server.ends(f"{lines}2 pass, 0 loose, 4 fail\n", status=1, faults=CLOSED * 4)


def three_in_a_row():
    """The third in a row ends it."""
    server = Tested("--timeout=2", *["1.1.1"] * 5)
    passes(server)
    for _ in range(3):
        server.next().close()
    lines = "1.1.1 PASS\n" + 3 * "1.1.1 no connection\n"
    server.ends(lines, status=3, faults=CLOSED * 3)
    assert server.has_no_more_clients()


def progress():
    """The name of a case is told before the case runs."""
    server = Tested("--progress", "1.1.1", "1.1.1")
    assert server.process.stderr.readline() == b"1.1.1\n"
    assert server.says_nothing_for(0.1)
    passes(server)
    assert server.line() == "1.1.1 PASS"
    server.next().close()
    server.ends("1.1.1 no connection\n", status=3, faults=b"1.1.1\n" + CLOSED)


def our_own_server_in_time():
    """With --timeout our server passes each case, also those in which the next turn would be sent in haste."""
    server = Server(240)
    status, output, faults = run("test", "--timeout", "2", server.address, seconds=120)
    assert (status, faults) == (0, b"")
    assert output.endswith(b"240 pass, 0 loose, 0 fail\n"), output[-60:]


TESTS = [
    closes_at_once,
    closes_in_the_head,
    resets_in_the_head,
    resets_in_mid_case,
    ends_in_a_frame,
    sends_a_fault_and_waits,
    closes_first_and_waits,
    fails_at_the_first_byte,
    unlawful_and_waits,
    garbage_for_a_head,
    explained,
    explained_in_styles,
    never_answers,
    silent_in_the_head,
    silent_behind_the_head,
    silent_in_the_last_turn,
    silent_in_a_frame,
    silent_for_ten_seconds_without_a_limit_of_ours,
    silent_for_more_than_ten_seconds,
    another_message_is_not_waited_behind,
    an_unowed_message_is_not_waited_behind,
    a_pong_without_a_ping_is_not_waited_behind,
    stays_behind_its_close,
    a_byte_each_half_second,
    sends_without_an_end,
    floods_a_case,
    each_piece_goes_out_at_once,
    takes_no_connection,
    two_in_a_row,
    three_in_a_row,
    progress,
    our_own_server_in_time,
]
