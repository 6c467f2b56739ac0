"""What `wst sweep` tells of servers of raw sockets: a right one, and such with one wrong of their own, of which the
shortest script that shows it is told first."""

import codecs
import resource
import socket
import threading

from hint_lines import STATUS
from send_lines import fed
from server import SECONDS, Tested, free_port, run
from wire import BAD_REQUEST, RESPONSE

CONTROL = (8, 9, 10)
ALLOWED = {*range(1000, 1004), *range(1007, 1015), *range(3000, 5000)}
FORTY = """close=1000
text "a"; close=1000
text fin=0 "a"; close=1000
text -; close=1000
text fin=0 -; close=1000
text fin=0 c3; close=1000
text c3
text c328
binary 00ff; close=1000
binary fin=0 00ff; close=1000
cont "b"
cont fin=0 "b"
cont a9
cont -
ping "p"; close=1000
ping -; close=1000
ping fin=0 "p"
ping 2a*126
pong "q"; close=1000
close 03e8
close -
close 03
close 03ed
text rsv=4 "a"
op3 -
op11 -
wait; close=1000
text key=- "a"
text "a"; text "a"; close=1000
text "a"; text fin=0 "a"; close=1000
text "a"; text -; close=1000
text "a"; text fin=0 -; close=1000
text "a"; text fin=0 c3; close=1000
text "a"; text c3
text "a"; text c328
text "a"; binary 00ff; close=1000
text "a"; binary fin=0 00ff; close=1000
text "a"; cont "b"
text "a"; cont fin=0 "b"
text "a"; cont a9
"""


class Failed(Exception):
    """The client broke a rule: the code of the close that says so (section 7.4.1)."""


class Echo:
    """A server that keeps the rules of RFC 6455 and sends each message back, over one connection after the other."""

    def __init__(self):
        self.listener = socket.create_server(("127.0.0.1", 0), backlog=64)
        self.address = f"127.0.0.1:{self.listener.getsockname()[1]}"
        threading.Thread(target=self.serve, daemon=True).start()

    def serve(self):
        while True:
            stream = self.listener.accept()[0]
            stream.settimeout(SECONDS)
            try:
                self.serve_one(stream)
            except (OSError, EOFError):
                pass
            stream.close()

    def serve_one(self, stream):
        self.stream, self.buffer, self.opened, self.parts = stream, b"", None, b""
        while b"\r\n\r\n" not in self.buffer:
            self.read()
        self.buffer = self.buffer.partition(b"\r\n\r\n")[2]
        stream.sendall(self.head())
        try:
            while self.take(*self.frame()):
                pass
        except Failed as failed:
            self.close(failed.args[0].to_bytes(2, "big"))
        stream.shutdown(socket.SHUT_WR)
        while stream.recv(4096):
            pass

    def head(self):
        return RESPONSE

    def read(self):
        got = self.stream.recv(4096)
        if not got:
            raise EOFError
        self.buffer += got

    def bytes(self, count):
        while len(self.buffer) < count:
            self.read()
        got, self.buffer = self.buffer[:count], self.buffer[count:]
        return got

    def frame(self):
        """FIN, the opcode and the payload of the next frame; its header keeps the rules of section 5."""
        first, second = self.bytes(2)
        fin, opcode, length = first >> 7, first & 15, second & 127
        if first & 0x70 or opcode not in (0, 1, 2, *CONTROL) or not second >> 7:
            raise Failed(1002)
        if opcode in CONTROL and (not fin or length > 125):
            raise Failed(1002)
        if opcode not in CONTROL and (opcode == 0) == (self.opened is None):
            raise Failed(1002)
        if length == 126:
            length = int.from_bytes(self.bytes(2), "big")
        key = self.bytes(4)
        return fin, opcode, bytes(byte ^ key[at % 4] for at, byte in enumerate(self.bytes(length)))

    def send(self, opcode, payload):
        self.stream.sendall(bytes([0x80 | opcode, len(payload)]) + payload)

    def take(self, fin, opcode, payload):
        """Whether the connection goes on behind this frame."""
        if opcode == 8:
            self.on_close(payload)
            return False
        if opcode == 9:
            self.send(10, payload)
        elif opcode == 10:
            self.on_pong(payload)
        else:
            self.on_data(fin, opcode, payload)
        return True

    def on_close(self, payload):
        if len(payload) == 1 or (payload and int.from_bytes(payload[:2], "big") not in ALLOWED):
            raise Failed(1002)
        self.close(payload[:2])

    def close(self, code):
        self.send(8, code)

    def on_pong(self, payload):
        pass

    def on_data(self, fin, opcode, payload):
        if not self.opened:
            self.opened, self.parts, self.text = opcode, b"", codecs.getincrementaldecoder("utf-8")()
        self.parts += payload
        if self.opened == 1:
            self.check_text(payload, fin)
        if fin:
            self.send(self.opened, self.parts)
            self.opened = None

    def check_text(self, payload, is_last):
        """Text that is none is refused as soon as a byte shows it (section 8.1)."""
        try:
            self.text.decode(payload, is_last)
        except UnicodeDecodeError:
            raise Failed(1007) from None


class AnswersPongs(Echo):
    def on_pong(self, payload):
        self.send(10, payload)


class EchoesFragments(Echo):
    """Each as a message of its own."""

    def on_data(self, fin, opcode, payload):
        self.opened = self.opened or opcode
        self.send(self.opened, payload)
        if fin:
            self.opened = None


class ForgetsCharacters(Echo):
    """Each fragment is to be text of its own, so that no character may go over two."""

    def check_text(self, payload, is_last):
        super().check_text(payload, True)


class ClosesWithItsOwnCode(Echo):
    def on_close(self, payload):
        super().on_close(payload and (1001).to_bytes(2, "big"))


class SendsBehindItsClose(Echo):
    def close(self, code):
        super().close(code)
        self.send(10, b"")


class DropsPings(Echo):
    def take(self, fin, opcode, payload):
        return True if opcode == 9 else super().take(fin, opcode, payload)


class Refuses(Echo):
    def head(self):
        return BAD_REQUEST


def first_line(server, *words):
    """The first line that is told of a server."""
    status, output, faults = run("sweep", *words, "--timeout", "2", server.address)
    assert (status, faults) == (1 if b"FAIL" in output else 0, b""), (status, faults)
    return output.decode().splitlines()[0]


def a_right_server():
    ended = run("sweep", "--all", "--timeout", "2", Echo().address)
    assert ended == (0, b"757 scripts: 757 pass, 0 loose, 0 fail\n", b""), ended


def a_server_that_answers_a_pong():
    assert first_line(AnswersPongs(), "--steps", "1") == 'FAIL Pongs: pong "q"; close=1000'


def a_server_that_echoes_a_fragment_alone():
    assert first_line(EchoesFragments(), "--steps", "1") == 'FAIL Messages: text fin=0 "a"; close=1000'


def a_server_that_forgets_a_character():
    assert first_line(ForgetsCharacters()) == "FAIL Messages: text fin=0 c3; cont a9; close=1000"


def a_server_that_closes_with_its_own_code():
    """That is allowed, and so it is told with --all alone."""
    assert first_line(ClosesWithItsOwnCode(), "--steps", "1", "--all") == "LOOSE OtherCode: close=1000"
    assert first_line(ClosesWithItsOwnCode(), "--steps", "0") == "1 scripts: 0 pass, 1 loose, 0 fail"


def a_server_that_sends_a_pong_behind_its_close():
    assert first_line(SendsBehindItsClose(), "--steps", "1") == "FAIL NotFrames: close=1000"


def played(script, address, *words):
    """The verdict on what `wst send` plays of the script in a line of a sweep."""
    lines = script.replace("; ", "\n") + "\n"
    status, capture, faults = fed(lines.encode(), "send", "--capture", "--timeout", "1", *words, address)
    assert (status, faults) == (0, b""), (script, status, faults)
    return fed(capture, "judge", *words)[1].decode().rstrip("\n")


def are_whole_scripts(server, *words):
    """The lines that are told of a server, each of which `wst send` plays with the verdict of the line."""
    output = run("sweep", "--all", "--steps", "1", "--timeout", "1", *words, server.address)[1]
    lines = output.decode().splitlines()[:-1]
    for line in lines:
        verdict, script = line.split(": ")
        assert played(script, server.address, *words) == verdict, line
    return lines


def a_line_that_is_played():
    """A line is the whole script: `wst send` plays it with the same verdict. Without the close there would be another."""
    assert are_whole_scripts(AnswersPongs()) == ['FAIL Pongs: pong "q"; close=1000']
    assert len(are_whole_scripts(EchoesFragments())) == 6
    assert "LOOSE OtherCode: close=1000" in are_whole_scripts(ClosesWithItsOwnCode())
    assert 'FAIL NotFrames: text "a"; close=1000' in are_whole_scripts(SendsBehindItsClose())
    assert played('text "a"', SendsBehindItsClose().address) == "PASS"


def a_line_that_is_played_by_the_protocol():
    """The wait before the close is in the line: in the turn of the close no pong is asked for."""
    server = DropsPings()
    lines = are_whole_scripts(server, "--expect=protocol")
    assert lines == ['FAIL Pongs: ping "p"; wait; close=1000', "FAIL Pongs: ping -; wait; close=1000"], lines
    assert played('ping "p"; close=1000', server.address, "--expect=protocol") == "PASS"


def a_server_that_refuses():
    ended = run("sweep", "--steps", "0", Refuses().address)
    assert ended == (1, b"FAIL Head Status: close=1000\n1 scripts: 0 pass, 0 loose, 1 fail\n", b""), ended


def a_server_that_refuses_all():
    """What all have in common is said once, behind the tenth line."""
    for words, count, told in (("--steps=1", 28, STATUS), ("--max-fail=10", 10, STATUS), ("--max-fail=9", 9, b"")):
        status, output, faults = run("sweep", words, Refuses().address)
        lines = output.splitlines()
        assert (status, len(lines), faults) == (1, count + 1, told), (status, lines, faults)
        assert lines[-1] == b"%d scripts: 0 pass, 0 loose, %d fail" % (count, count), lines[-1]


def the_first_forty_scripts():
    """By their lengths, and then by the alphabet: worked by hand."""
    status, output, faults = run("sweep", "--progress", "own")
    assert (status, output) == (0, b"757 scripts: 757 pass, 0 loose, 0 fail\n"), output
    told = faults.decode().splitlines(keepends=True)
    assert "".join(told[:40]) == FORTY, told[:40]
    assert len(told) == len(set(told)) == 757


def in_two_seconds():
    """The 757 scripts over our echo take less than two seconds: of the processor, so that a busy machine takes no more."""
    before = resource.getrusage(resource.RUSAGE_CHILDREN)
    assert run("sweep", "own") == (0, b"757 scripts: 757 pass, 0 loose, 0 fail\n", b"")
    after = resource.getrusage(resource.RUSAGE_CHILDREN)
    spent = after.ru_utime + after.ru_stime - before.ru_utime - before.ru_stime
    assert spent < 2, spent


class Swept(Tested):
    """`wst sweep` with these options against a socket of ours that listens."""

    command = "sweep"


def told_as_it_runs():
    """The steps of a script are told before it runs, and its line before the next one runs."""
    server = Swept("--steps=1", "--progress")
    assert server.process.stderr.readline() == b"close=1000\n"
    assert server.says_nothing_for(0.1)
    first = server.next()
    first.head()
    first.send(BAD_REQUEST)
    first.close()
    assert server.line() == "FAIL Head Status: close=1000"
    assert server.process.stderr.readline() == b'text "a"; close=1000\n'
    assert server.says_nothing_for(0.1)
    server.next().close()
    server.ends("", status=3, faults=b"no connection: closed before the answer\n")


def no_server():
    address = f"127.0.0.1:{free_port()}"
    assert run("sweep", address) == (3, b"", f"no connection: refused\n  tried {address}\n".encode())


TESTS = [
    a_right_server,
    a_server_that_answers_a_pong,
    a_server_that_echoes_a_fragment_alone,
    a_server_that_forgets_a_character,
    a_server_that_closes_with_its_own_code,
    a_server_that_sends_a_pong_behind_its_close,
    a_line_that_is_played,
    a_line_that_is_played_by_the_protocol,
    a_server_that_refuses,
    a_server_that_refuses_all,
    the_first_forty_scripts,
    in_two_seconds,
    told_as_it_runs,
    no_server,
]
