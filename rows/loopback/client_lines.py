"""What `wst test --role client`, `wst send --role client` and `wst sweep --role client` write of clients, which are raw
sockets here, what they send them, and how they end."""

import select
import socket
import subprocess
import time

from send_lines import NO_ECHO
from server import SECONDS, Client, Running, run, start
from sweep_lines import FORTY
from wire import BAD_REQUEST, NAMES_CHAT, OFFERING, OTHER_VERSION, REQUEST, RESPONSE

# A text and a close frame as a server sends them, and as a client does under a key of zeros, and a ping of a client
# (section 5.2).
CLOSE = bytes.fromhex("880203e8")
CLOSE_BACK = bytes.fromhex("88820000000003e8")
A_BACK = bytes.fromhex("81810000000061")
PING = bytes.fromhex("898000000000")
EMPTY_TEXT = b"\x81\x00"
EMPTY_PING = b"\x89\x00"
EMPTY_BACK = b"\x81\x80\x00\x00\x00\x00"
CAPTURE = """wst-capture 2
key -
turn
> 8100
< 818000000000
turn
> 880203e8
< 88820000000003e8
end tester
"""


def text(words):
    """A text frame of a server."""
    assert len(words) < 126
    return b"\x81" + bytes([len(words)]) + words.encode()


def request_for(path):
    return REQUEST.replace(b"/chat", path.encode())


class Listening(Running):
    """A run that listens for clients at a port that the system chooses. The line that tells it comes first: on the
    output of `test`, on the fault output where that says so."""

    def __init__(self, command, *words, told="output", stdin=subprocess.DEVNULL, text=None):
        self.process = start(command, "--role=client", *words, stdin=subprocess.PIPE if text else stdin)
        if text:
            self.process.stdin.write(text)
            self.process.stdin.close()
            self.process.stdin = None
        line = self.line() if told == "output" else self.process.stderr.readline().decode().rstrip("\n")
        front = "listening on 127.0.0.1:"
        assert line.startswith(front), line
        self.port = int(line.removeprefix(front))
        assert self.port != 0

    def connected(self):
        """A connection that has asked for nothing yet."""
        return Client(socket.create_connection(("127.0.0.1", self.port), SECONDS))

    def client(self, path="/"):
        """A connection that has asked for a path, and got the response."""
        client = self.connected()
        client.send(request_for(path))
        assert client.get(len(RESPONSE)) == RESPONSE
        return client

    def asks(self, *bytes_sent):
        """What a client gets that sends this and waits for the end."""
        client = self.connected()
        client.send(*bytes_sent)
        return client.rest()

    def is_told(self, path, words=None):
        """A connection for a path is told this, and a close in the same turn."""
        client = self.client(path)
        wanted = (b"" if words is None else text(words)) + CLOSE
        got = client.get(len(wanted))
        assert got == wanted, got
        client.send(CLOSE_BACK)
        assert client.rest() == b""
        client.close()

    def ends(self, *lines, status=0, faults=b""):
        got = list(iter(self.line, ""))
        assert got == list(lines), got
        assert self.process.wait(SECONDS) == status, self.process.returncode
        told = self.process.stderr.read()
        assert told == faults, told


ADDRESS = "127.0.0.1:0"


def right_client(run, path="/"):
    """A client that does right in the case 1.1.1, by turns."""
    client = run.client(path)
    assert client.get(len(EMPTY_TEXT)) == EMPTY_TEXT
    client.send(EMPTY_BACK)
    assert client.get(len(CLOSE)) == CLOSE
    client.send(CLOSE_BACK)
    assert client.rest() == b""
    client.close()


def goes_away(run, path):
    """A client that ends its connection once the case has begun."""
    client = run.client(path)
    assert client.get(1) == b"\x81"
    client.close()


def a_walk_over_the_cases():
    """As the test clients of libraries do: how many cases, each of them, how it stands, and the reports."""
    run = Listening("test", ADDRESS, "1.1.1", "2.1")
    run.is_told("/getCaseCount", "2")
    run.is_told("/getCaseStatus?case=1&agent=a", '{"behavior":"UNIMPLEMENTED"}')
    run.is_told("/getCaseInfo?case=1", '{"id":"1.1.1","description":"2 turns"}')
    right_client(run, "/runCase?case=1&agent=a")
    assert run.line() == "1.1.1 PASS"
    run.is_told("/getCaseStatus?case=1&agent=a", '{"behavior":"OK"}')
    client = run.client("/runCase?agent=a&case=2")
    assert client.get(len(EMPTY_PING)) == EMPTY_PING
    client.send(EMPTY_BACK)
    client.close()
    assert run.line() == "2.1 FAIL Messages"
    run.is_told("/getCaseStatus?case=2", '{"behavior":"FAILED"}')
    run.is_told("/updateReports?agent=a")
    run.ends("1 pass, 0 loose, 1 fail", status=1)


def a_walk_behind_a_front():
    """A proxy puts a part before the paths."""
    run = Listening("test", ADDRESS, "1.1.1", "2.1")
    run.is_told("/echo/getCaseCount", "2")
    right_client(run, "/echo/runCase?case=1")
    assert run.line() == "1.1.1 PASS"
    run.is_told("/echo/getCaseStatus?case=1", '{"behavior":"OK"}')
    run.is_told("/echo/updateReports")
    run.ends("2.1 FAIL NotRun", "1 pass, 0 loose, 1 fail", status=1)


def a_client_that_runs_no_case():
    run = Listening("test", ADDRESS, "1.1.1", "1.1.2")
    run.is_told("/updateReports")
    run.ends("1.1.1 FAIL NotRun", "1.1.2 FAIL NotRun", "0 pass, 0 loose, 2 fail", status=1)


def cases_that_are_named_wrongly():
    run = Listening("test", ADDRESS, "1.1.1")
    for query in ("", "?case=0", "?case=2", "?case=01", "?case=", "?case=1&case=1", "?Case=1", "?case=1?"):
        for path in ("/runCase", "/getCaseInfo", "/getCaseStatus"):
            run.is_told(path + query)
    run.is_told("/updateReports")
    run.ends("1.1.1 FAIL NotRun", "0 pass, 0 loose, 1 fail", status=1)


def any_other_path_is_the_next_case():
    run = Listening("test", ADDRESS, "1.1.1", "1.1.1")
    right_client(run, "/")
    assert run.line() == "1.1.1 PASS"
    right_client(run, "/chat?x=1")
    run.ends("1.1.1 PASS", "2 pass, 0 loose, 0 fail")


def a_case_that_is_run_twice():
    run = Listening("test", ADDRESS, "1.1.1")
    right_client(run, "/runCase?case=1")
    assert run.line() == "1.1.1 PASS"
    goes_away(run, "/runCase?case=1")
    assert run.line() == "1.1.1 FAIL Messages"
    run.is_told("/getCaseStatus?case=1", '{"behavior":"FAILED"}')
    run.is_told("/updateReports")
    run.ends("1 pass, 0 loose, 1 fail", status=1)


def requests_that_are_refused():
    run = Listening("test", ADDRESS, "1.1.1")
    assert run.asks(REQUEST.replace(b"GET", b"PUT")) == BAD_REQUEST
    assert run.asks(REQUEST.replace(b": 13", b": 8")) == OTHER_VERSION
    right_client(run)
    run.ends("1.1.1 PASS", "1 pass, 0 loose, 0 fail", faults=b"refused Method\nrefused WsVersion\n")


def streams_that_end_inside_the_head():
    run = Listening("test", ADDRESS, "1.1.1")
    for sent in (b"", REQUEST[:1], REQUEST[:-1]):
        client = Client(socket.create_connection(("127.0.0.1", run.port), SECONDS))
        client.send(sent)
        client.half_close()
        assert client.rest() == b""
        client.close()
    right_client(run)
    run.ends("1.1.1 PASS", "1 pass, 0 loose, 0 fail")


def a_client_that_forgets_the_mask():
    for options, due in ((), "-"), (("--data=text",), '""'), (("--data=all",), "-"):
        run = Listening("test", "--explain", *options, ADDRESS, "1.1.1")
        client = run.client()
        assert client.get(len(EMPTY_TEXT)) == EMPTY_TEXT
        client.send(EMPTY_TEXT)
        assert client.rest() == b""
        run.ends(
            "1.1.1 FAIL NotFrames",
            f"  due 1 text {due}",
            "  got 1 failed MaskWrong at 2 8100",
            "  end tester 1",
            "  rule All that a client sends must be valid (the last `got` line says what was not): masked frames in a valid order, with valid lengths and close "
            "payloads (RFC 6455 section 5), text in UTF-8 (section 8.1), no end inside a frame and nothing after its close frame (both ours)",
            "  rule A client masks all frames that it sends, and a server masks none (RFC 6455 section 5.1)",
            "0 pass, 0 loose, 1 fail",
            status=1,
        )


def a_client_that_closes_early():
    run = Listening("test", ADDRESS, "1.1.1")
    client = run.client()
    assert client.get(len(EMPTY_TEXT)) == EMPTY_TEXT
    client.send(CLOSE_BACK)
    assert client.rest() == b""
    run.ends("1.1.1 FAIL Messages", "0 pass, 0 loose, 1 fail", status=1)


def a_client_that_is_silent():
    run = Listening("test", "--timeout=1", ADDRESS, "1.1.1", "1.1.1")
    client = run.client()
    assert client.get(len(EMPTY_TEXT + CLOSE)) == EMPTY_TEXT + CLOSE
    assert client.rest() == b""
    client.close()
    assert run.line() == "1.1.1 FAIL Messages"
    waits = Client(socket.create_connection(("127.0.0.1", run.port), SECONDS))
    waits.send(REQUEST[:-1])
    assert waits.rest() == b""
    right_client(run)
    run.ends("1.1.1 PASS", "1 pass, 0 loose, 1 fail", status=1)


def a_client_that_resets():
    run = Listening("test", ADDRESS, "1.1.1")
    client = run.client()
    assert client.get(len(EMPTY_TEXT)) == EMPTY_TEXT
    client.reset()
    line = run.line()
    assert line == "1.1.1 FAIL Messages", line
    run.ends("0 pass, 0 loose, 1 fail", status=1)


# The first two turns of the case 6.4.1, of which the second is no text, and the close of a client that says so (1007).
TWO_TURNS = bytes.fromhex("010b" + "cebae1bdb9cf83cebcceb5" + "0004" + "f4908080")
NOT_TEXT = bytes.fromhex("88820000000003ef")


def gets_nothing_for(client, seconds):
    return not select.select([client.stream], [], [], seconds)[0]


def a_fault_that_is_answered_late():
    """With --timeout the turn of the fault is waited for, in which nothing is owed: the next one isn't sent in haste."""
    run = Listening("test", "--timeout=5", ADDRESS, "6.4.1")
    client = run.client()
    assert client.get(len(TWO_TURNS)) == TWO_TURNS
    assert gets_nothing_for(client, 0.3)
    client.send(NOT_TEXT)
    assert client.rest() == b""
    client.close()
    run.ends("6.4.1 PASS", "1 pass, 0 loose, 0 fail")


def a_fault_of_a_script_that_is_answered_late():
    run = Listening("send", "--timeout=5", ADDRESS, told="faults", text=b'text key=00000000 -\nwait\nping -\n')
    client = run.client()
    masked = bytes.fromhex("818000000000")
    assert client.get(len(masked)) == masked
    assert gets_nothing_for(client, 0.3)
    client.send(bytes.fromhex("88820000000003ea"))
    assert client.rest() == b""
    client.close()
    run.ends(
        "turn 1",
        "> 0 text fin=1 rsv=0 key=00000000 len=0 short - !mask",
        "< 0 close fin=1 rsv=0 key=00000000 len=2 short 03ea",
        "end tester",
    )


def a_client_that_sends_a_text_of_its_own():
    """It is no echo, and what to add is said once, but not where none is expected."""
    for options, faults in (((), NO_ECHO), (("--expect=protocol",), b"")):
        run = Listening("send", "--timeout=1", *options, ADDRESS, told="faults", text=b"close=1000\n")
        client = run.client()
        client.send(A_BACK)
        assert client.get(len(CLOSE)) == CLOSE
        assert client.rest() == b""
        client.close()
        run.ends(
            "turn 1",
            "> 0 close fin=1 rsv=0 key=- len=2 short 03e8",
            "< 0 text fin=1 rsv=0 key=00000000 len=1 short 61",
            "end tester",
            faults=faults,
        )


def a_client_that_sends_no_text():
    """The frame is marked whose payload is the first violation."""
    run = Listening("send", ADDRESS, told="faults", text=b'text "a"\n')
    client = run.client()
    assert client.get(3) == b"\x81\x01a"
    client.send(bytes.fromhex("818100000000ff"))
    assert client.rest() == b""
    client.close()
    run.ends(
        "turn 1",
        "> 0 text fin=1 rsv=0 key=- len=1 short 61",
        "< 0 text fin=1 rsv=0 key=00000000 len=1 short ff !text",
        "end tester",
    )


def a_budget_of_a_client():
    """A text of no bytes and a close are 14 bytes. Of one less the close isn't whole. Of 6 the text is, so its turn is
    over and the next one is sent, of which nothing is read."""
    for budget, line, status in (("14", "PASS", 0), ("13", "FAIL Close", 1), ("6", "FAIL Close", 1)):
        run = Listening("test", f"--budget={budget}", ADDRESS, "1.1.1")
        client = run.client()
        assert client.get(len(EMPTY_TEXT)) == EMPTY_TEXT
        client.send(EMPTY_BACK)
        client.get(len(CLOSE))
        client.send(CLOSE_BACK)
        assert client.rest() == b""
        client.close()
        total = "1 pass, 0 loose, 0 fail" if status == 0 else "0 pass, 0 loose, 1 fail"
        run.ends(f"1.1.1 {line}", total, status=status)


def sends_on(client):
    """What a client sends behind the end of its session is read and dropped for a while, so that it isn't reset."""
    assert client.rest() == b""
    for _ in range(3):
        client.send(bytes(1000))
        time.sleep(0.01)
    client.close()


def clients_that_send_on():
    """Behind their last bytes, be the connection one of several, the last one or the only one."""
    run = Listening("test", ADDRESS, "1.1.1", "1.1.1")
    for _ in range(2):
        client = run.client()
        assert client.get(len(EMPTY_TEXT)) == EMPTY_TEXT
        client.send(EMPTY_BACK)
        assert client.get(len(CLOSE)) == CLOSE
        client.send(CLOSE_BACK)
        sends_on(client)
        assert run.line() == "1.1.1 PASS"
    run.ends("2 pass, 0 loose, 0 fail")
    run = Listening("test", "--capture", ADDRESS, "1.1.1", told="faults")
    client = run.client("/getCaseCount")
    client.get(len(text("1") + CLOSE))
    client.send(CLOSE_BACK)
    sends_on(client)
    client = run.client("/runCase?case=1")
    assert client.get(len(EMPTY_TEXT)) == EMPTY_TEXT
    client.send(EMPTY_BACK)
    assert client.get(len(CLOSE)) == CLOSE
    client.send(CLOSE_BACK)
    sends_on(client)
    run.ends(*CAPTURE.splitlines())
    run = Listening("send", ADDRESS, told="faults", text=b"close=1000\n")
    client = run.client()
    assert client.get(len(CLOSE)) == CLOSE
    client.send(CLOSE_BACK)
    sends_on(client)
    run.ends(
        "turn 1",
        "> 0 close fin=1 rsv=0 key=- len=2 short 03e8",
        "< 0 close fin=1 rsv=0 key=00000000 len=2 short 03e8",
        "end tester",
    )


def names_that_are_known():
    run = Listening("test", "--protocols=chat", ADDRESS, "1.1.1")
    client = Client(socket.create_connection(("127.0.0.1", run.port), SECONDS))
    client.send(OFFERING)
    assert client.get(len(NAMES_CHAT)) == NAMES_CHAT
    assert client.get(len(EMPTY_TEXT)) == EMPTY_TEXT
    client.send(EMPTY_BACK)
    assert client.get(len(CLOSE)) == CLOSE
    client.send(CLOSE_BACK)
    run.ends("1.1.1 PASS", "1 pass, 0 loose, 0 fail")


def a_capture_of_a_client():
    run = Listening("test", "--capture", ADDRESS, "1.1.1", told="faults")
    run.is_told("/getCaseCount", "1")
    right_client(run, "/runCase?case=1")
    run.ends(*CAPTURE.splitlines())


def a_capture_of_a_client_that_runs_no_case():
    run = Listening("test", "--capture", ADDRESS, "1.1.1", told="faults")
    run.is_told("/updateReports")
    run.ends("1.1.1 FAIL NotRun", status=1)


def no_client_in_time():
    """What has no line is not run. How long bytes are waited for says nothing of it."""
    for options in ((), ("--timeout=5",)):
        started = time.monotonic()
        run = Listening("test", "--wait=1", *options, ADDRESS, "1.1.1", "2.1")
        late = b"no client for 1 seconds: 0 of 2 cases were run\n"
        run.ends("1.1.1 FAIL NotRun", "2.1 FAIL NotRun", "0 pass, 0 loose, 2 fail", status=1, faults=late)
        assert 0.9 < time.monotonic() - started < SECONDS


def no_further_client_in_time():
    """Each client is waited for so long. One that stays for longer than that is waited for. A case that was run twice is
    one that was run."""
    run = Listening("test", "--wait=2", ADDRESS, "1.1.1", "2.1")
    time.sleep(1.2)
    client = run.client("/runCase?case=1")
    assert client.get(len(EMPTY_TEXT)) == EMPTY_TEXT
    time.sleep(2.5)
    client.send(EMPTY_BACK)
    assert client.get(len(CLOSE)) == CLOSE
    client.send(CLOSE_BACK)
    client.close()
    assert run.line() == "1.1.1 PASS"
    time.sleep(1.2)
    assert run.asks(REQUEST.replace(b"GET", b"PUT")) == BAD_REQUEST
    time.sleep(1.2)
    right_client(run, "/runCase?case=1")
    late = b"refused Method\nno client for 2 seconds: 1 of 2 cases were run\n"
    run.ends("1.1.1 PASS", "2.1 FAIL NotRun", "2 pass, 0 loose, 1 fail", status=1, faults=late)


def all_cases_and_then_none_in_time():
    run = Listening("test", "--wait=1", ADDRESS, "1.1.1")
    right_client(run, "/runCase?case=1")
    late = b"no client for 1 seconds: 1 of 1 cases were run\n"
    run.ends("1.1.1 PASS", "1 pass, 0 loose, 0 fail", faults=late)


def no_client_in_time_for_a_capture():
    run = Listening("test", "--wait=1", "--capture", ADDRESS, "1.1.1", told="faults")
    run.ends("1.1.1 FAIL NotRun", status=1)


def no_client_in_time_for_a_script():
    for options in ((), ("--capture",)):
        run = Listening("send", "--wait=1", *options, ADDRESS, told="faults", text=b'text "Hello"\n')
        run.ends(status=3, faults=b"no connection: timed out\n")


def no_client_in_time_for_a_sweep():
    run = Listening("sweep", "--wait=1", "--steps=0", ADDRESS)
    late = b"no client for 1 seconds: 0 of 1 cases were run\n"
    run.ends("FAIL NotRun: close=1000", "1 scripts: 0 pass, 0 loose, 1 fail", status=1, faults=late)


def progress():
    run = Listening("test", "--progress", ADDRESS, "1.1.1")
    right_client(run)
    run.ends("1.1.1 PASS", "1 pass, 0 loose, 0 fail", faults=b"1.1.1\n")


def a_script_that_is_sent():
    for path in ("/", "/getCaseCount", "/runCase?case=7"):
        run = Listening("send", ADDRESS, told="faults", text=b'text "Hello"\nclose=1000\n')
        assert run.asks(REQUEST.replace(b"GET", b"PUT")) == BAD_REQUEST
        client = run.client(path)
        assert client.get(len(text("Hello") + CLOSE)) == text("Hello") + CLOSE
        client.send(bytes.fromhex("818537fa213d7f9f4d5158"), CLOSE_BACK)
        assert client.rest() == b""
        run.ends(
            "turn 1",
            "> 0 text fin=1 rsv=0 key=- len=5 short 48656c6c6f",
            "> 7 close fin=1 rsv=0 key=- len=2 short 03e8",
            "< 0 text fin=1 rsv=0 key=37fa213d len=5 short 48656c6c6f",
            "< 11 close fin=1 rsv=0 key=00000000 len=2 short 03e8",
            "end tester",
            faults=b"refused Method\n",
        )


def a_long_script_that_is_sent():
    run = Listening("send", ADDRESS, told="faults", text=500 * b'text "a"\n' + b"close=1000\n")
    client = run.client()
    sent = 500 * text("a") + CLOSE
    assert client.get(len(sent)) == sent
    client.send(500 * A_BACK, CLOSE_BACK)
    assert client.rest() == b""
    run.ends(
        "turn 1",
        *(f"> {place} text fin=1 rsv=0 key=- len=1 short 61" for place in range(0, 1500, 3)),
        "> 1500 close fin=1 rsv=0 key=- len=2 short 03e8",
        *(f"< {place} text fin=1 rsv=0 key=00000000 len=1 short 61" for place in range(0, 3500, 7)),
        "< 3500 close fin=1 rsv=0 key=00000000 len=2 short 03e8",
        "end tester",
    )


def an_answer_of_a_client_is_told_before_the_next_step():
    """It comes late. No buffer holds what is sent next: its line is there while most of that isn't sent."""
    run = Listening("send", ADDRESS, told="faults", text=b'text "a"\nwait\nbinary 00*8388608\nclose=1000\n')
    client = run.client()
    assert client.get(len(text("a"))) == text("a")
    assert (run.line(), run.line()) == ("turn 1", "> 0 text fin=1 rsv=0 key=- len=1 short 61")
    time.sleep(0.7)
    client.send(A_BACK)
    assert run.line() == "< 0 text fin=1 rsv=0 key=00000000 len=1 short 61"
    assert run.says_nothing_for(0.3)
    sent = b"\x82\x7f" + (8388608).to_bytes(8, "big") + bytes(8388608) + CLOSE
    assert client.get(len(sent)) == sent
    client.send(CLOSE_BACK)
    assert client.rest() == b""
    run.ends(
        "turn 2",
        "> 3 binary fin=1 rsv=0 key=- len=8388608 eight 00000000000000000000000000000000..",
        "> 8388621 close fin=1 rsv=0 key=- len=2 short 03e8",
        "< 7 close fin=1 rsv=0 key=00000000 len=2 short 03e8",
        "end tester",
        faults=NO_ECHO,
    )


def a_frame_that_has_begun():
    """A script without a close ends once what is owed has come: where a frame of the client has begun by then, with that
    frame."""
    run = Listening("send", ADDRESS, told="faults", text=b'text "a"\n')
    client = run.client()
    assert client.get(len(text("a"))) == text("a")
    client.send(A_BACK, PING[:1])
    told = ["turn 1", "> 0 text fin=1 rsv=0 key=- len=1 short 61", "< 0 text fin=1 rsv=0 key=00000000 len=1 short 61"]
    assert [run.line() for _ in told] == told
    assert run.says_nothing_for(0.2)
    client.send(PING[1:])
    assert client.rest() == b""
    run.ends("< 7 ping fin=1 rsv=0 key=00000000 len=0 short -", "end tester")


def a_frame_that_has_begun_is_judged():
    """The same of its capture, on which a client that sends pings of its own has the verdict Pass."""
    run = Listening("send", "--capture", ADDRESS, told="faults", text=b'text "a"\n')
    client = run.client()
    assert client.get(len(text("a"))) == text("a")
    client.send(A_BACK, PING[:1])
    assert run.says_nothing_for(0.2)
    client.send(PING[1:])
    assert client.rest() == b""
    capture = ["wst-capture 2", "key -", "turn", "> 810161", "< 81810000000061898000000000", "end tester"]
    run.ends(*capture)
    judge = start("judge", "--role=client", stdin=subprocess.PIPE)
    told = judge.communicate("".join(f"{line}\n" for line in capture).encode(), timeout=SECONDS)
    assert (judge.returncode, *told) == (0, b"PASS\n", b""), told


def a_sweep_of_a_client():
    run = Listening("sweep", "--steps=0", "--progress", ADDRESS)
    run.is_told("/getCaseCount", "1")
    run.is_told("/getCaseInfo?case=1", '{"id":"1","description":"1 turns"}')
    run.is_told("/runCase?case=1")
    run.is_told("/getCaseStatus?case=1", '{"behavior":"OK"}')
    run.is_told("/updateReports")
    run.ends("1 scripts: 1 pass, 0 loose, 0 fail", faults=b"close=1000\n")


def a_sweep_of_which_little_is_run():
    run = Listening("sweep", "--steps=1", ADDRESS)
    run.is_told("/getCaseCount", "28")
    run.is_told("/getCaseInfo?case=28", '{"id":"28","description":"1 turns"}')
    run.is_told("/")
    client = run.client()
    assert client.get(1) == b"\x81"
    client.half_close()
    client.close()
    assert run.line() == 'FAIL Messages: text "a"; close=1000'
    run.is_told("/updateReports")
    steps = [*FORTY.splitlines()[2:27], 'text key=00000000 "a"']
    missing = [f"FAIL NotRun: {step}" for step in steps]
    run.ends(*missing, "28 scripts: 1 pass, 0 loose, 27 fail", status=1)


def a_sweep_of_a_client_with_its_own_code():
    """That is allowed, and so it is told with --all alone."""
    for words, told in (([], []), (["--all"], ["LOOSE OtherCode: close=1000"])):
        run = Listening("sweep", "--steps=0", *words, ADDRESS)
        client = run.client()
        assert client.get(len(CLOSE)) == CLOSE
        client.send(bytes.fromhex("88820000000003e9"))
        assert client.rest() == b""
        client.close()
        run.ends(*told, "1 scripts: 0 pass, 1 loose, 0 fail")


def ports_of_zeros():
    """Each word whose port is read as 0 is told with the port that was chosen."""
    for port in ("00", "+0"):
        right_client(Listening("test", f"127.0.0.1:{port}", "1.1.1"))


def known_lines_of_clients():
    """Beside an earlier run, whose lines come in: those of `test`, with the line that tells the address."""
    known = b"listening on 127.0.0.1:9001\n1.1.1 PASS\n1.1.2 FAIL NotRun\n1.1.3 LOOSE LateEnd\n2 pass, 0 loose, 1 fail\n"
    run = Listening("test", "--known", ADDRESS, "1.1.1", "1.1.2", "1.1.3", "2.2", text=known)
    right_client(run, "/runCase?case=1")
    assert run.line() == "1.1.1 PASS"
    goes_away(run, "/runCase?case=3")
    assert run.line() == "1.1.3 FAIL Messages (was LOOSE LateEnd)"
    run.is_told("/updateReports")
    counts = "known: 2 same, 2 new, 0 fixed, 0 changed"
    run.ends("1.1.2 FAIL NotRun", "2.2 FAIL NotRun (new)", "1 pass, 0 loose, 3 fail", counts, status=1)


def known_fails_of_clients():
    run = Listening("test", "--known", ADDRESS, "1.1.1", "1.1.2", text=b"1.1.1 LOOSE Early\n1.1.2 FAIL NotRun\n")
    right_client(run, "/runCase?case=1")
    assert run.line() == "1.1.1 PASS (was LOOSE Early)"
    run.is_told("/updateReports")
    run.ends("1.1.2 FAIL NotRun", "1 pass, 0 loose, 1 fail", "known: 1 same, 0 new, 0 fixed, 1 changed")


def a_summary_of_clients():
    """Of the last run of a case; those that no client has asked for are in it."""
    run = Listening("test", "--summary", ADDRESS, "1.1.1", "1.1.2", "1.1.3", "2.2")
    goes_away(run, "/runCase?case=2")
    assert run.line() == "1.1.2 FAIL Messages"
    right_client(run, "/runCase?case=1")
    assert run.line() == "1.1.1 PASS"
    run.is_told("/updateReports")
    summary = ("FAIL NotRun 2: 1.1.3, 2.2", "FAIL Messages 1: 1.1.2")
    run.ends("1.1.3 FAIL NotRun", "2.2 FAIL NotRun", "1 pass, 0 loose, 3 fail", *summary, status=1)


def a_list_that_is_none():
    process = start("test", "--known", "--role=client", ADDRESS, stdin=subprocess.PIPE)
    told = process.communicate(b"1.1.1 PASSED\n", timeout=SECONDS)
    assert (process.returncode, *told) == (1, b"", b"line 1: not a verdict\n"), told


DOCUMENT = """<?xml version="1.0" encoding="UTF-8"?>
<testsuites><testsuite name="wst 127.0.0.1:0">
<testcase classname="wst" name="1.1.1 Empty text message"/>
<testcase classname="wst" name="1.1.2 Text message of 125 bytes"><failure type="FAIL NotRun" message="FAIL NotRun">
</failure></testcase>
</testsuite></testsuites>
"""


def a_document_of_clients():
    run = Listening("test", "--junit", ADDRESS, "1.1.1", "1.1.2", told="faults")
    right_client(run, "/runCase?case=1")
    run.is_told("/getCaseStatus?case=1", '{"behavior":"OK"}')
    run.is_told("/updateReports")
    run.ends(*DOCUMENT.splitlines(), status=1, faults=b"1 pass, 0 loose, 1 fail\n")


def a_document_beside_an_earlier_run():
    run = Listening("test", "--junit", "--known", ADDRESS, "1.1.1", "1.1.2", told="faults", text=b"1.1.2 FAIL NotRun\n")
    right_client(run, "/runCase?case=1")
    run.is_told("/updateReports")
    run.ends(
        '<?xml version="1.0" encoding="UTF-8"?>',
        '<testsuites><testsuite name="wst 127.0.0.1:0">',
        '<testcase classname="wst" name="1.1.1 Empty text message"><failure type="PASS" message="PASS (new)">',
        "no known verdict: write the known verdicts again",
        "</failure></testcase>",
        '<testcase classname="wst" name="1.1.2 Text message of 125 bytes"><skipped message="FAIL NotRun"/></testcase>',
        "</testsuite></testsuites>",
        status=1,
        faults=b"1 pass, 0 loose, 1 fail\nknown: 1 same, 0 new, 0 fixed, 1 changed\n",
    )


def no_listener():
    with socket.create_server(("127.0.0.1", 0)) as taken:
        address = f"127.0.0.1:{taken.getsockname()[1]}"
        for words in (["test", address], ["test", "--capture", address, "1.1.1"], ["sweep", address]):
            assert run(words[0], "--role=client", *words[1:]) == (3, b"", b"not listening: address in use\n")
    assert run("test", "--role=client", "127.0.0.1", "1.1.1") == (3, b"", b"not listening: no such host\n  HOST:PORT to listen at, up to 65535: localhost:9001\n")
    told = b"bad address\n  an address to listen at is wanted: HOST:PORT\n"
    assert run("test", "--role=client", "ws://127.0.0.1:1", "1.1.1") == (2, b"", told)


# Words that are the host of no request: with a blank, without a byte, longer than 255 bytes, not of ASCII, with a control
# character; and words that are nearly the name of an end in memory.
NO_HOSTS = ("a b", "", "a" * 251 + ":9001", "h\u00f6st:9001", "a\t:9001", "own ", " own", "tung ", "127.0.0.1:0 ")


def no_host_to_listen_at():
    """It is told in its place in the order: behind the key, before the IDs are looked at, and before a script is read.
    The longest host is one, of which nothing is known."""
    bad, ids = (2, b"", b"bad address\n"), (["1.1.1"], ["9.9.9"], ["--capture"])
    for address in NO_HOSTS:
        for words in (["test", address, *more] for more in ids):
            assert run(*words, "--role=client") == bad, words
        for words in (["send", address], ["send", "--capture", address], ["sweep", address], ["sweep", "--steps=0", address]):
            assert run(*words, "--role=client") == bad, words
        assert run("test", "--role=client", "--key=x", address) == (2, b"", b"bad key\n  eight lower-case hexadecimal digits: --key 37fa213d\n"), address
        assert run("sweep", "--role=client", "--steps=5", address) == (2, b"", b"--steps takes 0 to 4\n"), address
    longest = "a" * 250 + ":9001"
    assert run("sweep", "--role=client", "--steps=0", longest) == (3, b"", b"not listening: no such host\n  HOST:PORT to listen at, up to 65535: localhost:9001\n")
    told = b"bad address\nwss:// is not supported; run socat or stunnel and pass its address to --connect\n"
    assert run("test", "--role=client", "wss: b", "1.1.1") == (2, b"", told)


TESTS = [
    a_walk_over_the_cases,
    a_walk_behind_a_front,
    a_client_that_runs_no_case,
    cases_that_are_named_wrongly,
    any_other_path_is_the_next_case,
    a_case_that_is_run_twice,
    requests_that_are_refused,
    streams_that_end_inside_the_head,
    a_client_that_forgets_the_mask,
    a_client_that_closes_early,
    a_client_that_is_silent,
    a_fault_that_is_answered_late,
    a_fault_of_a_script_that_is_answered_late,
    a_client_that_sends_a_text_of_its_own,
    a_client_that_sends_no_text,
    a_budget_of_a_client,
    clients_that_send_on,
    a_client_that_resets,
    names_that_are_known,
    a_capture_of_a_client,
    a_capture_of_a_client_that_runs_no_case,
    no_client_in_time,
    no_further_client_in_time,
    all_cases_and_then_none_in_time,
    no_client_in_time_for_a_capture,
    no_client_in_time_for_a_script,
    no_client_in_time_for_a_sweep,
    progress,
    a_script_that_is_sent,
    a_long_script_that_is_sent,
    an_answer_of_a_client_is_told_before_the_next_step,
    a_frame_that_has_begun,
    a_frame_that_has_begun_is_judged,
    a_sweep_of_a_client,
    a_sweep_of_which_little_is_run,
    a_sweep_of_a_client_with_its_own_code,
    ports_of_zeros,
    known_lines_of_clients,
    known_fails_of_clients,
    a_summary_of_clients,
    a_list_that_is_none,
    a_document_of_clients,
    a_document_beside_an_earlier_run,
    no_listener,
    no_host_to_listen_at,
]
