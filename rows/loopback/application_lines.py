"""What `wst test --expect protocol` tells of servers that don't echo: a chat that greets, pings and closes by itself,
one that answers the newest ping alone, one that answers none, one that lets a reserved bit pass, and one that goes
away; and what the tester waits for."""

import base64
import hashlib
import select
import socket
import subprocess
import time
from threading import Thread

from send_lines import Sent
from server import SECONDS, Tested, start

ACCEPTS = b"258EAFA5-E914-47DA-95CA-C5AB0DC85B11"
CONTINUATION, TEXT, BINARY, CLOSE, PING, PONG = 0, 1, 2, 8, 9, 10
POLICY = 1008


def frame(opcode, payload=b""):
    """A frame of a server with less than 126 bytes of payload."""
    return bytes([0x80 + opcode, len(payload)]) + payload


class Application:
    """A connection to a server that reads frame by frame. What it does with them is for the kinds below to say."""

    def __init__(self, client):
        self.client, self.is_open = client, True

    def run(self):
        with self.client.stream:
            self.answer_head()
            self.greet()
            while self.is_open and (found := self.next_frame()):
                self.take(*found)

    def answer_head(self):
        head = b""
        while not head.endswith(b"\r\n\r\n"):
            head += self.client.get(1)
        lines = dict(line.split(b": ", 1) for line in head.split(b"\r\n")[1:] if b": " in line)
        accept = base64.b64encode(hashlib.sha1(lines[b"Sec-WebSocket-Key"] + ACCEPTS).digest())
        self.client.send(
            b"HTTP/1.1 101 Switching Protocols\r\nUpgrade: websocket\r\nConnection: Upgrade\r\n"
            b"Sec-WebSocket-Accept: " + accept + b"\r\n\r\n"
        )

    def next_frame(self):
        """The first byte of the next frame and its payload; None at the end of the stream."""
        start = self.client.stream.recv(1)
        if not start:
            return None
        length = self.client.get(1)[0] % 128
        length = int.from_bytes(self.client.get({126: 2, 127: 8}[length]), "big") if length > 125 else length
        key, payload = self.client.get(4), self.client.get(length)
        return start[0], bytes(byte ^ key[at % 4] for at, byte in enumerate(payload))

    def greet(self):
        pass

    def take(self, first, payload):
        opcode = first % 16
        if opcode == CLOSE:
            self.close(payload[:2])
        elif opcode == PING:
            self.client.send(frame(PONG, payload))

    def close(self, code):
        """Closes, and reads to the end, so that nothing of what it sent is lost."""
        self.client.send(frame(CLOSE, code))
        self.client.stream.shutdown(socket.SHUT_WR)
        while self.client.stream.recv(4096):
            pass
        self.is_open = False


class Chat(Application):
    """It greets, asks whether the other is there, sends what is binary to all, and closes at a text, which it doesn't
    know."""

    def greet(self):
        self.client.send(frame(TEXT, b"welcome"), frame(PING, b"there?"))

    def take(self, first, payload):
        if first % 16 == TEXT:
            self.close(POLICY.to_bytes(2, "big"))
        elif first % 16 == BINARY:
            self.client.send(frame(BINARY, b"to all"), frame(TEXT, b"sent"))
        else:
            super().take(first, payload)


class Undefined(Chat):
    """It closes at a text with a code that the standard leaves undefined, and goes once the other has ended."""

    def take(self, first, payload):
        if first % 16 == TEXT:
            self.client.send(frame(CLOSE, b"\x03\xf8"))
            self.client.rest()
            self.is_open = False
        else:
            super().take(first, payload)


class Newest(Application):
    """It reads late: all pings that are there before it answers the last of them."""

    def next_frame(self):
        found = super().next_frame()
        self.client.stream.settimeout(0.2)
        try:
            while found and found[0] % 16 == PING and self.client.stream.recv(1, socket.MSG_PEEK):
                found = super().next_frame()
        except TimeoutError:
            pass
        self.client.stream.settimeout(SECONDS)
        return found


class Deaf(Application):
    """It never answers a ping."""

    def take(self, first, payload):
        if first % 16 != PING:
            super().take(first, payload)


class Lax(Application):
    """It asks nothing of reserved bits: all that it takes is a frame."""


class Gone(Application):
    """It goes away at the first frame, and reads what is sent to it to the end, so that the connection doesn't break."""

    def take(self, first, payload):
        self.client.half_close()
        self.client.rest()
        self.is_open = False


class Late(Gone):
    """It goes away once the frame behind the first one has come, which it hasn't read by then."""

    def take(self, first, payload):
        select.select([self.client.stream], [], [], SECONDS)
        super().take(first, payload)


class Slow(Application):
    """It answers a ping after half a second, and goes away if more comes before that."""

    def take(self, first, payload):
        if first % 16 == PING and select.select([self.client.stream], [], [], 0.5)[0]:
            self.client.half_close()
            self.client.rest()
            self.is_open = False
        else:
            super().take(first, payload)


class Beating(Application):
    """Behind each answer to a ping it sends a pong of its own, in one piece with it."""

    def take(self, first, payload):
        if first % 16 == PING:
            self.client.send(frame(PONG, payload), frame(PONG, b"beat"))
        else:
            super().take(first, payload)


class Foreseeing(Deaf):
    """With its head come the pong for the ping of the case and one of its own; it answers no ping behind them."""

    def answer_head(self):
        put = self.client.send
        self.client.send = lambda head: put(head, frame(PONG, b"Hello, world!"), frame(PONG, b"beat"))
        super().answer_head()
        self.client.send = put


def told(kind, case, verdict, *lines, limit=1):
    """A server of this kind has this verdict on the case by the protocol, with these lines below it."""
    tested = Tested("--expect=protocol", f"--timeout={limit}", "--explain", case)
    thread = Thread(target=lambda: kind(tested.next()).run())
    thread.start()
    word = verdict.split(" ")[0]
    total = f"{int(word == 'PASS')} pass, {int(word == 'LOOSE')} loose, {int(word == 'FAIL')} fail\n"
    below = "".join(f"  {line}\n" for line in lines)
    tested.ends(f"{case} {verdict}\n{below}{total}", int(word == "FAIL"))
    thread.join()


def a_chat_server():
    told(Chat, "1.2.1", "PASS")
    told(Chat, "2.2", "PASS")
    told(Chat, "7.3.3", "PASS")


def a_chat_server_that_closes_at_a_text():
    # The ping behind the text is owed a pong, so the tester waits for what comes.
    told(
        Chat,
        "5.6",
        "LOOSE OwnClose",
        "got 1 text 77656c636f6d65",
        "got 1 ping 74686572653f",
        "got 1 close 1008",
        "end peer 1",
        "rule A server may close the connection whenever desired (RFC 6455 section 7.3)",
    )


def a_server_that_closes_with_an_undefined_code():
    # The tester ends its own direction at that, so that the case has ended long before its time limit.
    began = time.monotonic()
    told(
        Undefined,
        "5.6",
        "LOOSE OwnClose",
        "got 1 text 77656c636f6d65",
        "got 1 ping 74686572653f",
        "got 1 close 1016",
        "end peer 1",
        "rule A server may close the connection whenever desired (RFC 6455 section 7.3)",
        limit=8,
    )
    took = time.monotonic() - began
    assert took < 4, took


def a_server_that_answers_the_newest_ping():
    told(
        Newest,
        "2.10",
        "LOOSE PongsSkipped",
        *(f"due 1 pong {payload(number)}" for number in range(10)),
        "due 2 close 1000",
        f"got 1 pong {payload(9)}",
        "got 2 close 1000",
        "end peer 2",
        "rule A ping needs no answer if a later one is answered (RFC 6455 section 5.5.3), or if the endpoint may not "
        "have read it or was sending a data frame: frames are not interleaved (section 5.4), and a pong should come as"
        " soon as is practical (section 5.5.2)",
    )


def payload(number):
    return f"payload-{number}".encode().hex()


def a_server_that_answers_no_ping():
    told(
        Deaf,
        "2.2",
        "FAIL Pongs",
        "due 1 pong 48656c6c6f2c20776f726c6421",
        "due 2 close 1000",
        "got 2 close 1000",
        "end peer 2",
        "rule An endpoint that receives a ping sends a pong with its payload, unless it has already received a close "
        "frame (RFC 6455 section 5.5.2); a pong for the latest ping is enough (section 5.5.3)",
    )


def a_server_that_lets_a_reserved_bit_pass():
    told(
        Lax,
        "3.1",
        "FAIL End",
        "due 1 end ReservedBits",
        "end tester 1",
        "rule A server closes the connection when it has to fail it after a violation (RFC 6455 sections 5.1, 5.2, "
        "7.1.7 and 8.1), and immediately when it has sent and received a close frame (section 5.5.1)",
        "rule A reserved bit is 0 unless an extension defines it, and an endpoint that receives a 1 fails the "
        "connection (RFC 6455 section 5.2)",
    )


def a_server_that_goes_away():
    # The close follows the message at once, since no message is waited for.
    told(
        Late,
        "1.2.1",
        "LOOSE NoClose",
        "due 2 close 1000",
        "end peer 2",
        "rule A close frame is answered by one (RFC 6455 section 5.5.1), and an endpoint that has to fail the "
        "connection closes it (section 7.1.7); it may not have read so far, or was sending a message of its own",
    )


def a_server_that_goes_away_before_a_close():
    sent = Sent(b'text "Hello"\n', "--expect=protocol", "--capture")
    thread = Thread(target=lambda: Gone(sent.next()).run())
    thread.start()
    capture = "".join(f"{line}\n" for line in iter(sent.line, ""))
    thread.join()
    judge = start("judge", "--expect=protocol", "--explain", stdin=subprocess.PIPE)
    output, faults = judge.communicate(capture.encode(), timeout=SECONDS)
    rule = (
        "An endpoint closes the connection by a close frame first (RFC 6455 section 7.1.2); when necessary it may "
        "close it by any means (section 7.1.1), and at data that it does not understand it may drop it (section 10.7)"
    )
    assert output.decode() == f"LOOSE OwnEnd\n  end peer 1\n  rule {rule}\n", output
    assert (judge.returncode, faults) == (0, b""), faults


def no_message_is_waited_for():
    # A server that sends none would cost eight seconds, were its echo waited for.
    began = time.monotonic()
    told(Lax, "1.1.1", "PASS", limit=8)
    took = time.monotonic() - began
    assert took < 4, took


def a_pong_is_waited_for():
    told(Slow, "2.2", "PASS", limit=5)


def a_pong_of_its_own_hides_no_answer():
    # The case has ended long before its time limit, which a wait for another pong would need.
    began = time.monotonic()
    told(Beating, "2.2", "PASS", limit=8)
    took = time.monotonic() - began
    assert took < 4, took


def a_pong_before_its_ping_answers_it():
    # So it does in one turn, whatever came between; a wait for another pong would need the time limit.
    began = time.monotonic()
    told(Foreseeing, "2.2", "PASS", limit=8)
    took = time.monotonic() - began
    assert took < 4, took


TESTS = [
    a_chat_server,
    a_chat_server_that_closes_at_a_text,
    a_server_that_closes_with_an_undefined_code,
    a_server_that_answers_the_newest_ping,
    a_server_that_answers_no_ping,
    a_server_that_lets_a_reserved_bit_pass,
    a_server_that_goes_away,
    a_server_that_goes_away_before_a_close,
    no_message_is_waited_for,
    a_pong_is_waited_for,
    a_pong_of_its_own_hides_no_answer,
    a_pong_before_its_ping_answers_it,
]
