"""What `wst send` writes of a run at servers of raw sockets, when it writes it, and how it ends."""

import os
import socket
import subprocess
import time

from server import SECONDS, WST, Server, Tested, free_port, run, start
from wire import CLOSE_BACK, FAILED_1002, FAILED_1009, HELLO, HELLO_BACK, MASKED_CLOSE, NOT_MASKED, RESPONSE
from wire import binary, request_to, with_line

SCRIPT = b'text "Hello"\n'
WITH_CLOSE = b'text "Hello"\nwait\nclose=1000\n'
TURN_1 = "turn 1"
SENT_HELLO = "> 0 text fin=1 rsv=0 key=37fa213d len=5 short 48656c6c6f"
GOT_HELLO = "< 0 text fin=1 rsv=0 key=- len=5 short 48656c6c6f"
SENT_CLOSE = "> 11 close fin=1 rsv=0 key=37fa213d len=2 short 03e8"
GOT_CLOSE = "< 7 close fin=1 rsv=0 key=- len=2 short 03e8"
BY_TURNS = f"{TURN_1}\n{SENT_HELLO}\n{GOT_HELLO}\nturn 2\n{SENT_CLOSE}\n{GOT_CLOSE}\nend peer\n"
BINARY_16_MIB = b"binary 00*16777216\n"
NO_ECHO = b"nothing came back, or not what an echo sends: if the endpoint doesn't echo, add --expect protocol\n"
# A text "hi" of a server (section 5.2).
GREETING = b"\x81\x02hi"
GOT_GREETING = "< 0 text fin=1 rsv=0 key=- len=2 short 6869"


class Sent(Tested):
    """`wst send` with these options and this script against a socket of ours that listens."""

    def __init__(self, script, *options, stdout=subprocess.PIPE):
        self.listener = socket.create_server(("127.0.0.1", 0))
        self.listener.settimeout(SECONDS)
        self.address = f"127.0.0.1:{self.listener.getsockname()[1]}"
        self.process = start("send", *options, self.address, stdin=subprocess.PIPE, stdout=stdout)
        self.process.stdin.write(script)
        self.process.stdin.close()
        self.process.stdin = None

    def accepted(self, response):
        """The server's end of the connection, behind the head and this answer to it."""
        client = self.next()
        asked = request_to(self.address)
        assert client.get(len(asked)) == asked
        client.send(response)
        return client


def lines_as_they_come():
    """Those of `>` before anything has come, and each of `<` as soon as its frame is whole."""
    server = Sent(WITH_CLOSE)
    client = server.accepted(RESPONSE)
    assert client.get(len(HELLO)) == HELLO
    assert (server.line(), server.line()) == (TURN_1, SENT_HELLO)
    client.send(HELLO_BACK[:-1])
    assert server.says_nothing_for(0.2)
    client.send(HELLO_BACK[-1:])
    assert server.line() == GOT_HELLO
    assert client.get(len(MASKED_CLOSE)) == MASKED_CLOSE
    assert (server.line(), server.line()) == ("turn 2", SENT_CLOSE)
    client.send(CLOSE_BACK)
    assert server.line() == GOT_CLOSE
    client.close()
    server.ends("end peer\n")


def an_answer_that_comes_late():
    server = Sent(SCRIPT)
    client = server.accepted(RESPONSE)
    assert client.get(len(HELLO)) == HELLO
    time.sleep(0.7)
    client.send(HELLO_BACK)
    time.sleep(0.7)
    client.send(CLOSE_BACK)
    client.close()
    server.ends(f"{TURN_1}\n{SENT_HELLO}\n{GOT_HELLO}\n{GOT_CLOSE}\nend peer\n")


def single_bytes():
    server = Sent(WITH_CLOSE)
    client = server.accepted(RESPONSE)
    for byte in HELLO_BACK:
        client.send(bytes([byte]))
    assert client.get(len(HELLO + MASKED_CLOSE)) == HELLO + MASKED_CLOSE
    for byte in CLOSE_BACK:
        client.send(bytes([byte]))
    client.close()
    server.ends(BY_TURNS)


def two_frames_in_a_turn():
    """The turn is told to its last frame, also where all that is due has come before it."""
    server = Sent(SCRIPT)
    client = server.accepted(RESPONSE)
    assert client.get(len(HELLO)) == HELLO
    client.send(HELLO_BACK)
    time.sleep(0.3)
    client.send(b"\x89\x00", CLOSE_BACK)
    client.close()
    server.ends(
        f"{TURN_1}\n{SENT_HELLO}\n{GOT_HELLO}\n< 7 ping fin=1 rsv=0 key=- len=0 short -\n"
        "< 9 close fin=1 rsv=0 key=- len=2 short 03e8\nend peer\n"
    )


def an_answer_in_the_middle_of_a_turn():
    """No buffer holds the turn, so that it is not sent yet when its first frame is answered. Its lines stand before."""
    server = Sent(b'text "Hello"\nbinary 00*8388608\n', "--key", "00000000")
    client = server.accepted(RESPONSE)
    hello = b"\x81\x85" + bytes(4) + b"Hello"
    assert client.get(len(hello)) == hello
    client.send(HELLO_BACK)
    assert server.says_nothing_for(0.3)
    frame = binary(8388608)
    assert client.get(len(frame)) == frame
    client.send(FAILED_1009)
    client.close()
    server.ends(
        f"{TURN_1}\n> 0 text fin=1 rsv=0 key=00000000 len=5 short 48656c6c6f\n"
        "> 11 binary fin=1 rsv=0 key=00000000 len=8388608 eight 00000000000000000000000000000000..\n"
        f"{GOT_HELLO}\n< 7 close fin=1 rsv=0 key=- len=2 short 03f1\nend peer\n"
    )


def an_answer_is_told_before_the_next_step():
    """It comes late. No buffer holds what is sent next: its line is there while most of that isn't sent."""
    server = Sent(b'text "Hello"\nwait\nbinary 00*8388608\n', "--key", "00000000")
    client = server.accepted(RESPONSE)
    hello = b"\x81\x85" + bytes(4) + b"Hello"
    assert client.get(len(hello)) == hello
    assert (server.line(), server.line()) == (TURN_1, SENT_HELLO.replace("37fa213d", "00000000"))
    time.sleep(0.7)
    client.send(HELLO_BACK)
    assert server.line() == GOT_HELLO
    assert server.says_nothing_for(0.3)
    frame = binary(8388608)
    assert client.get(len(frame)) == frame
    client.send(FAILED_1009)
    client.close()
    server.ends(
        "turn 2\n> 11 binary fin=1 rsv=0 key=00000000 len=8388608 eight 00000000000000000000000000000000..\n"
        "< 7 close fin=1 rsv=0 key=- len=2 short 03f1\nend peer\n"
    )


def a_frame_before_anything_was_sent():
    """It came with the head, and stands behind what its turn has sent."""
    server = Sent(SCRIPT)
    client = server.accepted(RESPONSE + HELLO_BACK)
    assert client.get(len(HELLO)) == HELLO
    client.close()
    server.ends(f"{TURN_1}\n{SENT_HELLO}\n{GOT_HELLO}\nend peer\n")


def an_end_inside_a_frame():
    server = Sent(SCRIPT)
    client = server.accepted(RESPONSE)
    assert client.get(len(HELLO)) == HELLO
    client.send(HELLO_BACK, b"\x81\x7e\x01")
    client.close()
    server.ends(f"{TURN_1}\n{SENT_HELLO}\n{GOT_HELLO}\n< cut at 7\nend peer\n")


def a_server_that_greets():
    """It is no echo: the last turn ends with its close, and what to add is said once, but not beside a capture."""
    for options, shown in (((), True), (("--capture",), False)):
        server = Sent(WITH_CLOSE, *options)
        client = server.accepted(RESPONSE + GREETING)
        assert client.get(len(HELLO + MASKED_CLOSE)) == HELLO + MASKED_CLOSE
        lines = f"{TURN_1}\n{SENT_HELLO}\n{GOT_GREETING}\nturn 2\n{SENT_CLOSE}\nend tester\n"
        capture = (
            f"wst-capture 2\nkey 37fa213d\nturn\n> {HELLO.hex()}\n< {GREETING.hex()}\n"
            f"turn\n> {MASKED_CLOSE.hex()}\nend tester\n"
        )
        server.ends(lines if shown else capture, faults=NO_ECHO if shown else b"")
        client.close()


def a_server_that_greets_and_need_not_echo():
    server = Sent(WITH_CLOSE, "--expect=protocol")
    client = server.accepted(RESPONSE + GREETING)
    assert client.get(len(HELLO + MASKED_CLOSE)) == HELLO + MASKED_CLOSE
    client.send(CLOSE_BACK)
    client.close()
    got_close = GOT_CLOSE.replace("< 7", "< 4")
    server.ends(f"{TURN_1}\n{SENT_HELLO}\n{GOT_GREETING}\nturn 2\n{SENT_CLOSE}\n{got_close}\nend peer\n")


def a_server_that_never_answers():
    server = Sent(SCRIPT)
    client = server.accepted(RESPONSE)
    begun = time.monotonic()
    server.ends(f"{TURN_1}\n{SENT_HELLO}\nend tester\n", faults=NO_ECHO)
    assert 1.5 < time.monotonic() - begun < 5
    client.close()


def a_request_that_is_never_answered():
    server = Sent(SCRIPT)
    client = server.next()
    begun = time.monotonic()
    silent = b"no connection: timed out\n  connected, but no complete answer to the request in time\n"
    server.ends("", status=3, faults=silent)
    assert 1.5 < time.monotonic() - begun < 5
    client.close()


def a_budget_that_is_used_up():
    """Of the answer no more is read than the words allow."""
    server = Sent(SCRIPT, "--budget", "4")
    client = server.accepted(RESPONSE)
    assert client.get(len(HELLO)) == HELLO
    client.send(HELLO_BACK)
    server.ends(f"{TURN_1}\n{SENT_HELLO}\n< cut at 0\nend broken\n")
    client.close()


def a_reset():
    """The run was made, also where it ended so."""
    server = Sent(WITH_CLOSE)
    client = server.accepted(RESPONSE)
    assert client.get(len(HELLO)) == HELLO
    client.reset()
    server.ends(f"{TURN_1}\n{SENT_HELLO}\nend broken\n")


def a_frame_that_no_client_may_send():
    server = Sent(b'text key=- "Hello"\n')
    client = server.accepted(RESPONSE)
    assert client.get(len(NOT_MASKED)) == NOT_MASKED
    client.send(FAILED_1002)
    client.close()
    server.ends(
        f"{TURN_1}\n> 0 text fin=1 rsv=0 key=- len=5 short 48656c6c6f !mask\n"
        "< 0 close fin=1 rsv=0 key=- len=2 short 03ea\nend peer\n"
    )


def a_text_that_is_none():
    """In each direction the frame is marked whose payload is the first violation, as soon as its line comes."""
    server = Sent(b"text ff\n")
    client = server.accepted(RESPONSE)
    not_text = bytes.fromhex("818137fa213dc8")
    assert client.get(len(not_text)) == not_text
    assert server.line() == TURN_1
    assert server.line() == "> 0 text fin=1 rsv=0 key=37fa213d len=1 short ff !text"
    client.send(b"\x01\x01\xe2")
    assert server.line() == "< 0 text fin=0 rsv=0 key=- len=1 short e2"
    client.send(b"\x80\x01")
    assert server.says_nothing_for(0.2)
    client.send(b"(")
    assert server.line() == "< 3 cont fin=1 rsv=0 key=- len=1 short 28 !text"
    client.close()
    server.ends("end tester\n")


def a_close_of_one_byte():
    """It is marked, and no other frame; nor is one behind it, which comes with it."""
    server = Sent(SCRIPT)
    client = server.accepted(RESPONSE)
    assert client.get(len(HELLO)) == HELLO
    client.send(HELLO_BACK, b"\x88\x01\x03", b"\x81\x01\xff")
    client.close()
    got = "< 7 close fin=1 rsv=0 key=- len=1 short 03 !close\n< 10 text fin=1 rsv=0 key=- len=1 short ff\n"
    server.ends(f"{TURN_1}\n{SENT_HELLO}\n{GOT_HELLO}\n{got}end tester\n")


def a_capture():
    server = Sent(SCRIPT, "--capture")
    client = server.accepted(RESPONSE)
    assert client.get(len(HELLO)) == HELLO
    client.send(HELLO_BACK)
    client.close()
    server.ends(
        "wst-capture 2\nkey 37fa213d\nturn\n> 818537fa213d7f9f4d5158\n< 810548656c6c6f\nend peer\n"
    )


def a_script_of_16_mib():
    server = Sent(BINARY_16_MIB, "--key", "00000000")
    client = server.accepted(RESPONSE)
    frame = b"\x82\xff" + (16777216).to_bytes(8, "big") + bytes(4 + 16777216)
    assert client.get(len(frame)) == frame
    client.send(FAILED_1002)
    client.close()
    server.ends(
        f"{TURN_1}\n> 0 binary fin=1 rsv=0 key=00000000 len=16777216 eight 00000000000000000000000000000000..\n"
        "< 0 close fin=1 rsv=0 key=- len=2 short 03ea\nend peer\n"
    )


def a_server_that_takes_nothing():
    """A turn that no buffer holds waits for the reader, and ends as broken."""
    server = Sent(b"binary 00*8388608\n", "--timeout", "1")
    client = server.accepted(RESPONSE)
    assert server.line() == TURN_1
    assert server.line().startswith("> cut at 0")
    server.ends("end broken\n")
    client.close()


def a_refused_answer():
    server = Sent(SCRIPT)
    client = server.accepted(with_line(RESPONSE, b"Sec-WebSocket-Protocol: chat"))
    client.close()
    rule = b"  rule A response names at most one subprotocol, and one that was offered (RFC 6455 section 4.1)\n"
    server.ends("", status=1, faults=b"FAIL Head Protocol\n" + rule)


def a_refused_answer_in_place_of_a_capture():
    server = Sent(SCRIPT, "--capture")
    client = server.accepted(with_line(RESPONSE, b"Sec-WebSocket-Extensions: x"))
    client.close()
    rule = b"  rule A response names no extension that was not offered, and none was (RFC 6455 section 4.1)\n"
    server.ends("", status=1, faults=b"FAIL Head Extension\n" + rule)


def no_connection():
    address = f"127.0.0.1:{free_port()}"
    assert run("send", address) == (3, b"", f"no connection: refused\n  tried {address}\n".encode())
    connected = run("send", "--connect", address, "ws://localhost/chat")
    assert connected == (3, b"", f"no connection: refused\n  tried {address}\n".encode())


def an_answer_that_is_cut():
    server = Sent(SCRIPT)
    client = server.next()
    client.send(RESPONSE[:20])
    client.half_close()
    client.rest()
    server.ends("", status=3, faults=b"no connection: closed before the answer\n")


def no_script():
    """It is read first, and nothing is asked for."""
    server = Sent(b"text 6\n")
    server.ends("", status=1, faults=b"line 1: not a step\n  the payload is one word, of pairs of digits: binary 00ff\n")
    assert server.has_no_more_clients()


def a_closed_output():
    """It ends the run quietly."""
    reading, writing = os.pipe()
    os.close(reading)
    server = Sent(WITH_CLOSE, stdout=writing)
    os.close(writing)
    client = server.accepted(RESPONSE)
    assert client.get(len(HELLO)) == HELLO
    assert client.get(1) == b""
    assert server.process.wait(SECONDS) == 3
    assert server.process.stderr.read() == b""


def our_own_server():
    server = Server(1)
    process = start("send", server.address, stdin=subprocess.PIPE)
    output, faults = process.communicate(b'text key=- "Hello"\n', timeout=SECONDS)
    assert (process.returncode, faults) == (0, b"")
    assert output == (
        b"turn 1\n> 0 text fin=1 rsv=0 key=- len=5 short 48656c6c6f !mask\n"
        b"< 0 close fin=1 rsv=0 key=- len=2 short 03ea\nend peer\n"
    )
    server.ends("1 failed MaskWrong")


def each_case_as_a_script():
    """Over our echo the text of a case gives the capture of the case, byte for byte, and as lines those of this capture
    with its marks. One case has data that look like another code, which is remarked."""
    remarks = {"7.7.13": b"line 1: close 1387 is code 4999; close=1387 is code 1387\n"}
    status, listed, _ = run("cases")
    names = [line.split()[0].decode() for line in listed.splitlines()]
    assert (status, len(names)) == (0, 240)
    for name in [*names, *(f"x.{number}" for number in range(1, 7))]:
        script = run("cases", name)[1]
        status, capture, faults = run("test", "--capture", "own", name)
        shown, lines, _ = fed(capture, "show", "--capture")
        remark = remarks.get(name, b"")
        assert (status, faults, shown) == (0, b"", 0), name
        assert fed(script, "send", "--capture", "own") == (0, capture, remark), name
        assert fed(script, "send", "own") == (0, lines, remark), name


def fed(given, *words):
    """What the command makes of an input: its status, its output and its fault output."""
    process = start(*words, stdin=subprocess.PIPE)
    told = process.communicate(given, timeout=SECONDS)
    return process.returncode, *told


def examples_of_the_help():
    """Each example of the help, as it stands, but for the one that needs a server."""
    lines = run("send", "--help")[1].decode().splitlines()
    examples = [line.strip() for line in lines if line.endswith("| wst send own")]
    assert len(examples) == 2, examples
    for example in examples:
        folder = {**os.environ, "PATH": f"{WST.parent}:{os.environ['PATH']}"}
        ran = subprocess.run(["sh", "-c", example], capture_output=True, timeout=SECONDS, env=folder, check=False)
        assert (ran.returncode, ran.stderr) == (0, b""), (example, ran)
        assert ran.stdout.startswith(b"turn 1\n> 0 ") and b"\n< 0 " in ran.stdout, (example, ran)


def two_large_texts_at_an_echo():
    """One that writes before it reads on: what comes is read while a turn is written."""
    with_length = "len=8388608 eight 2a2a2a2a2a2a2a2a2a2a2a2a2a2a2a2a.."
    echo = Server(1, "--limit=16777216")
    process = start("send", "--timeout=9", echo.address, stdin=subprocess.PIPE)
    script = b"text 2a*8388608\ntext 2a*8388608\nclose=1000\n"
    output, faults = process.communicate(script, timeout=6 * SECONDS)
    lines = [
        TURN_1,
        f"> 0 text fin=1 rsv=0 key=37fa213d {with_length}",
        f"> 8388622 text fin=1 rsv=0 key=37fa213d {with_length}",
        "> 16777244 close fin=1 rsv=0 key=37fa213d len=2 short 03e8",
        f"< 0 text fin=1 rsv=0 key=- {with_length}",
        f"< 8388618 text fin=1 rsv=0 key=- {with_length}",
        "< 16777236 close fin=1 rsv=0 key=- len=2 short 03e8",
        "end peer",
    ]
    assert (process.returncode, faults) == (0, b"")
    assert output.decode() == "".join(f"{line}\n" for line in lines), output


def more_than_memory():
    """A megabyte of text that asks for 800 GB."""
    script = b"binary 00*16777216\n" * 50000
    command = f"ulimit -v 4000000; exec {WST} send own"
    process = subprocess.Popen(
        ["sh", "-c", command], stdin=subprocess.PIPE, stdout=subprocess.PIPE, stderr=subprocess.PIPE
    )
    output = process.communicate(script, timeout=6 * SECONDS)
    assert (process.returncode, *output) == (3, b"", b"no memory\n")


TESTS = [
    lines_as_they_come,
    an_answer_that_comes_late,
    single_bytes,
    two_frames_in_a_turn,
    an_answer_in_the_middle_of_a_turn,
    an_answer_is_told_before_the_next_step,
    a_frame_before_anything_was_sent,
    an_end_inside_a_frame,
    a_server_that_greets,
    a_server_that_greets_and_need_not_echo,
    a_server_that_never_answers,
    a_request_that_is_never_answered,
    a_budget_that_is_used_up,
    a_reset,
    a_frame_that_no_client_may_send,
    a_text_that_is_none,
    a_close_of_one_byte,
    a_capture,
    a_script_of_16_mib,
    a_server_that_takes_nothing,
    a_refused_answer,
    a_refused_answer_in_place_of_a_capture,
    no_connection,
    an_answer_that_is_cut,
    no_script,
    a_closed_output,
    our_own_server,
    each_case_as_a_script,
    examples_of_the_help,
    two_large_texts_at_an_echo,
    more_than_memory,
]
