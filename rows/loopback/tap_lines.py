"""What `wst tap` passes on between a client and a server, what it tells of them, and when."""

import random
import resource
import select
import socket
import threading

from server import SECONDS, Client, Running, connected, free_port, max_resident, run, start
from wire import CLOSE, CLOSE_BACK, HELLO, HELLO_BACK, NOT_MASKED, REQUEST, RESPONSE

ASKED = "> GET /chat HTTP/1.1"
ANSWERED = "< HTTP/1.1 101 Switching Protocols"
SAID = "> 0 text fin=1 rsv=0 key=37fa213d len=5 short 48656c6c6f"
HEARD = "< 0 text fin=1 rsv=0 key=- len=5 short 48656c6c6f"
REFUSAL = b"HTTP/1.1 200 OK\r\nContent-Length: 4\r\n\r\n"
MUCH = 32 * 1024 * 1024
LONG = 60


class Tap(Running):
    """`wst tap` between its clients and a socket of ours that listens."""

    def __init__(self, count=1, target=None, before=None, options=()):
        self.listener = socket.create_server(("127.0.0.1", 0))
        self.listener.settimeout(SECONDS)
        self.number = 0
        target = (target or "127.0.0.1:{}").format(self.listener.getsockname()[1])
        self.process = start("tap", *options, "127.0.0.1:0", target, str(count), before=before)
        told, _, port = self.line().rpartition(":")
        assert told == "listening on 127.0.0.1", told
        self.port = int(port)

    def client(self):
        return Client(connected(self.port))

    def pair(self):
        """A client, and the server's end of the connection that is made for it."""
        self.number += 1
        client = self.client()
        return client, Client(self.listener.accept()[0])

    def open_pair(self):
        """A pair whose handshake is over."""
        client, server = self.pair()
        client.send(REQUEST)
        assert server.get(len(REQUEST)) == REQUEST
        server.send(RESPONSE)
        assert client.get(len(RESPONSE)) == RESPONSE
        self.tells(ASKED, ANSWERED)
        return client, server

    def tells(self, *lines):
        """The next lines are these, of the connection that was made last."""
        for line in lines:
            got = self.line()
            assert got == f"{self.number} {line}", (got, line)

    def ends(self, status=0, faults=b""):
        assert self.line() == ""
        assert self.process.wait(SECONDS) == status, self.process.returncode
        assert self.process.stderr.read() == faults


def end_in_turn(first, other):
    """The one end closes, and the other once it has read to the end of what came: which of them ended first is certain."""
    first.close()
    assert other.rest() == b""
    other.close()


def at_once(*tasks):
    """Runs these at once; an error in one of them is one of the test."""
    errors = []

    def guarded(task):
        try:
            task()
        except Exception as error:  # noqa: BLE001
            errors.append(error)

    threads = [threading.Thread(target=guarded, args=(task,)) for task in tasks]
    for thread in threads:
        thread.start()
    for thread in threads:
        thread.join(LONG)
    assert not errors and not any(thread.is_alive() for thread in threads), errors


def a_connection():
    tap = Tap()
    client, server = tap.pair()
    client.send(REQUEST)
    assert server.get(len(REQUEST)) == REQUEST
    tap.tells(ASKED)
    server.send(RESPONSE)
    assert client.get(len(RESPONSE)) == RESPONSE
    tap.tells(ANSWERED)
    client.send(HELLO)
    assert server.get(len(HELLO)) == HELLO
    tap.tells(SAID)
    server.send(HELLO_BACK)
    assert client.get(len(HELLO_BACK)) == HELLO_BACK
    tap.tells(HEARD)
    client.send(CLOSE)
    assert server.get(len(CLOSE)) == CLOSE
    server.send(CLOSE_BACK)
    server.close()
    assert client.rest() == CLOSE_BACK
    client.close()
    tap.tells(
        "> 11 close fin=1 rsv=0 key=00000000 len=2 short 03e8",
        "< 7 close fin=1 rsv=0 key=- len=2 short 03e8",
        "end server",
    )
    tap.ends()


def in_512_kib_of_stack():
    """With the stack that docs/proof/ASSUMPTIONS.md says is enough: a connection with 1 MiB each way, in each style."""
    million = 1024 * 1024
    text = bytes.fromhex("827f0000000000100000") + bytes(million)
    masked = bytes.fromhex("82ff000000000010000000000000") + bytes(million)
    quoted = '"' + "\\u0000" * 64 + '"..'
    for style, zeros in [("hex", "00" * 16 + ".."), ("text", quoted), ("all", "00" * million)]:
        tap = Tap(before=keep_to_512_kib_of_stack, options=(f"--data={style}",))
        client, server = tap.open_pair()
        told = f"> 0 binary fin=1 rsv=0 key=00000000 len=1048576 eight {zeros}"
        at_once(
            lambda: client.send(masked),
            lambda: same(server.get(len(masked)), masked),
            lambda: tap.tells(told),
        )
        told = f"< 0 binary fin=1 rsv=0 key=- len=1048576 eight {zeros}"
        at_once(
            lambda: server.send(text),
            lambda: same(client.get(len(text)), text),
            lambda: tap.tells(told),
        )
        end_in_turn(client, server)
        tap.tells("end client")
        tap.ends()


def keep_to_512_kib_of_stack():
    resource.setrlimit(resource.RLIMIT_STACK, (512 * 1024, 512 * 1024))


def same(got, wanted):
    assert got == wanted


def a_line_once_its_frame_is_whole():
    tap = Tap()
    client, server = tap.open_pair()
    client.send(HELLO[:-1])
    assert server.get(len(HELLO) - 1) == HELLO[:-1]
    assert tap.says_nothing_for(0.2)
    client.send(HELLO[-1:])
    assert server.get(1) == HELLO[-1:]
    tap.tells(SAID)
    server.send(HELLO_BACK[:3])
    assert client.get(3) == HELLO_BACK[:3]
    assert tap.says_nothing_for(0.2)
    server.close()
    tap.tells("< cut at 0")
    client.close()
    tap.tells("end server")
    tap.ends()


def frames_that_come_with_the_heads():
    tap = Tap()
    client, server = tap.pair()
    client.send(REQUEST, HELLO)
    assert server.get(len(REQUEST + HELLO)) == REQUEST + HELLO
    tap.tells(ASKED)
    assert tap.says_nothing_for(0.2)
    server.send(RESPONSE, HELLO_BACK)
    assert client.get(len(RESPONSE + HELLO_BACK)) == RESPONSE + HELLO_BACK
    tap.tells(ANSWERED, SAID, HEARD)
    end_in_turn(client, server)
    tap.tells("end client")
    tap.ends()


def heads_in_pieces():
    tap = Tap()
    client, server = tap.pair()
    for at in range(0, len(REQUEST), 7):
        client.send(REQUEST[at : at + 7])
        assert server.get(len(REQUEST[at : at + 7])) == REQUEST[at : at + 7]
    tap.tells(ASKED)
    for byte in RESPONSE + HELLO_BACK:
        server.send(bytes([byte]))
        assert client.get(1) == bytes([byte])
    tap.tells(ANSWERED, HEARD)
    end_in_turn(client, server)
    tap.tells("end client")
    tap.ends()


def half_closes():
    tap = Tap(2)
    client, server = tap.open_pair()
    client.half_close()
    assert server.rest() == b""
    server.send(HELLO_BACK)
    assert client.get(len(HELLO_BACK)) == HELLO_BACK
    tap.tells(HEARD)
    server.close()
    assert client.rest() == b""
    tap.tells("end client")
    client, server = tap.open_pair()
    server.half_close()
    assert client.rest() == b""
    client.send(HELLO)
    assert server.get(len(HELLO)) == HELLO
    tap.tells(SAID)
    client.close()
    assert server.rest() == b""
    tap.tells("end server")
    tap.ends()


def resets():
    """A reset of either end, before anything is sent, in a head, behind the heads, in a frame and behind a half-close of the
    other end: both connections are closed. One that the server resets at once may count as not made."""
    tap = Tap(10)
    for who in (0, 1):
        for state in range(5):
            ends = tap.pair() if state < 2 else tap.open_pair()
            reset_in(state, ends, who)
            try:
                assert ends[1 - who].rest() == b"", (who, state)
            except ConnectionResetError:
                pass
            ends[1 - who].close()
            assert tap.line() in ends_of_reset(tap.number, state, who)
    tap.ends()


def ends_of_reset(number, state, who):
    """What may be told of the connection of this number of which an end was reset in this state."""
    words = ["end broken", "no connection"] if (state, who) == (0, 1) else ["end broken"]
    return [f"{number} {word}" for word in words]


def reset_in(state, ends, who):
    """One of the ends is reset, in this state of their connection."""
    client, server = ends
    if state == 1:
        client.send(REQUEST[:9])
        assert server.get(9) == REQUEST[:9]
    if state == 3:
        client.send(HELLO[:5])
        assert server.get(5) == HELLO[:5]
    if state == 4:
        ends[1 - who].half_close()
        assert ends[who].rest() == b""
    ends[who].reset()


def a_head_of_9000_bytes():
    tap = Tap()
    client, server = tap.pair()
    head = REQUEST[:-2] + b"X: " + bytes(9000 - len(REQUEST) - 5).replace(b"\0", b"a") + b"\r\n\r\n"
    assert len(head) == 9000
    client.send(head, HELLO)
    assert server.get(len(head + HELLO)) == head + HELLO
    server.send(RESPONSE, HELLO_BACK)
    assert client.get(len(RESPONSE + HELLO_BACK)) == RESPONSE + HELLO_BACK
    tap.tells(ANSWERED, HEARD)
    end_in_turn(client, server)
    tap.tells("end client")
    tap.ends()


def an_answer_of_another_status():
    tap = Tap()
    client, server = tap.pair()
    client.send(REQUEST, HELLO)
    assert server.get(len(REQUEST + HELLO)) == REQUEST + HELLO
    server.send(REFUSAL, b"gone")
    server.close()
    assert client.rest() == REFUSAL + b"gone"
    client.close()
    tap.tells(ASKED, "< HTTP/1.1 200 OK", "end server")
    tap.ends()


def what_is_no_websocket():
    tap = Tap()
    client, server = tap.pair()
    noise = random.Random(38).randbytes(100000)
    at_once(lambda: client.send(noise), lambda: server.send(noise), lambda: check(client, noise), lambda: check(server, noise))
    end_in_turn(client, server)
    tap.tells("end client")
    tap.ends()


def check(end, wanted):
    got = end.get(len(wanted))
    assert got == wanted, len(got)


def marks():
    tap = Tap()
    client, server = tap.open_pair()
    client.send(NOT_MASKED)
    assert server.get(len(NOT_MASKED)) == NOT_MASKED
    tap.tells("> 0 text fin=1 rsv=0 key=- len=5 short 48656c6c6f !mask")
    server.send(bytes.fromhex("c107f248cdc9c90700"))
    assert client.get(9)
    tap.tells("< 0 text fin=1 rsv=4 key=- len=7 short f248cdc9c90700")
    server.send(b"\x82\x7f" + b"\xff" * 8)
    assert client.get(10)
    tap.tells("< bad length at 9")
    server.send(HELLO_BACK)
    assert client.get(len(HELLO_BACK)) == HELLO_BACK
    end_in_turn(client, server)
    tap.tells("end client")
    tap.ends()


def much_both_ways_with_a_slow_reader():
    """32 MiB each way at once, in frames of 128 KiB; the server reads slowly."""
    tap = Tap()
    client, server = tap.open_pair()
    source = random.Random(6455)
    block = source.randbytes(131072 - 14)
    sent = b"\x82\xff" + len(block).to_bytes(8, "big") + bytes(4) + block
    got = b"\x82\x7f" + len(block).to_bytes(8, "big") + block
    lines = []
    at_once(
        lambda: [client.send(sent) for _ in range(MUCH // len(sent))],
        lambda: [server.send(got) for _ in range(MUCH // len(sent))],
        lambda: takes(client, got, MUCH // len(sent), 0),
        lambda: takes(server, sent, MUCH // len(sent), 0.002),
        lambda: lines.extend(tap.line() for _ in range(2 * (MUCH // len(sent)))),
    )
    shown = block[:16].hex() + ".."
    for mark, size, key in (("1 > ", len(sent), "00000000"), ("1 < ", len(got), "-")):
        wanted = [f"{at * size} binary fin=1 rsv=0 key={key} len={len(block)} eight {shown}" for at in range(MUCH // len(sent))]
        assert [line[4:] for line in lines if line.startswith(mark)] == wanted, mark
    end_in_turn(client, server)
    tap.tells("end client")
    tap.ends()


def takes(end, frame, count, pause):
    """This frame comes so many times, and is read with pauses."""
    for _ in range(count):
        got = end.get(len(frame))
        assert got == frame, len(got)
        if pause:
            select.select([], [], [], pause)


def a_peer_that_takes_nothing_stops_the_other():
    tap = Tap()
    client, server = tap.open_pair()
    client.stream.setblocking(False)
    frame = HELLO * 6000
    sent, still = 0, 0
    while still < 5:
        try:
            sent += client.stream.send(frame)
            still = 0
        except BlockingIOError:
            select.select([], [client.stream], [], 0.1)
            still += 1
        while select.select([tap.process.stdout], [], [], 0)[0]:
            tap.buffer = b""
            assert tap.process.stdout.read1(65536)
    assert sent < MUCH, sent
    assert max_resident(tap.process.pid) < 16 * 1024 * 1024
    client.close()
    server.close()


def a_hundred_connections():
    tap = Tap(100)
    seen = []
    for _ in range(100):
        client, server = tap.open_pair()
        client.send(HELLO)
        assert server.get(len(HELLO)) == HELLO
        server.send(HELLO_BACK)
        assert client.get(len(HELLO_BACK)) == HELLO_BACK
        tap.tells(SAID, HEARD)
        end_in_turn(server, client)
        tap.tells("end server")
        seen.append(max_resident(tap.process.pid) if tap.number < 100 else seen[-1])
    assert seen[-1] - seen[4] <= 65536, seen
    tap.ends()


def the_next_client_waits():
    tap = Tap(2)
    client, server = tap.open_pair()
    other = tap.client()
    other.send(REQUEST)
    assert tap.says_nothing_for(0.2)
    end_in_turn(client, server)
    tap.tells("end client")
    tap.number += 1
    server = Client(tap.listener.accept()[0])
    assert server.get(len(REQUEST)) == REQUEST
    tap.tells(ASKED)
    end_in_turn(other, server)
    tap.tells("end client")
    tap.ends()


def no_connection():
    tap = Tap(2, f"127.0.0.1:{free_port()}")
    for _ in range(2):
        tap.number += 1
        assert tap.client().rest() == b""
        tap.tells("no connection")
    tap.ends()


def a_url_names_the_server():
    """Of a URL the host and the port count. The path that the server is asked for is the client's."""
    for url in ("ws://127.0.0.1:{}", "WS://localhost:{}/other?x=1"):
        tap = Tap(target=url)
        client, server = tap.open_pair()
        end_in_turn(server, client)
        tap.tells("end server")
        tap.ends()


def payloads_in_other_styles():
    """With `--data`, payloads are told as text, or all of them, of both ends, as soon as their frame is whole."""
    long = b"\x81\x14" + b"twenty bytes of text"
    for style, short, shown in [("text", '"Hello"', '"twenty bytes of text"'), ("all", "48656c6c6f", long[2:].hex())]:
        tap = Tap(options=(f"--data={style}",))
        client, server = tap.open_pair()
        client.send(HELLO)
        assert server.get(len(HELLO)) == HELLO
        tap.tells(f"> 0 text fin=1 rsv=0 key=37fa213d len=5 short {short}")
        server.send(long)
        assert client.get(len(long)) == long
        tap.tells(f"< 0 text fin=1 rsv=0 key=- len=20 short {shown}")
        end_in_turn(server, client)
        tap.tells("end server")
        tap.ends()


def output_that_nobody_reads():
    tap = Tap()
    client, server = tap.pair()
    tap.process.stdout.close()
    client.send(REQUEST)
    assert tap.process.wait(SECONDS) == 3
    client.close()
    server.close()


def words_that_are_no_addresses():
    no_listen = "LISTEN is an address to listen at: HOST:PORT"
    no_target = "TARGET is HOST:PORT or ws://HOST:PORT/PATH"
    bad_port = "a port is at most 65535, and 80 without one: ws://HOST:PORT/PATH"
    for listen, target, advice in (
        ("x", "a:1", no_listen),
        (":1", "a:1", no_listen),
        ("a b:1", "a:1", no_listen),
        ("a:65536", "wss://a:1", no_listen),
        ("ws://127.0.0.1:x", "a:1", no_listen),
        ("a:1", "x", no_target),
        ("a:1", "a:65536", no_target),
        ("a:1", "ws://", no_target),
        ("a:1", "ws://:1", no_target),
        ("a:1", "ws://a:", bad_port),
        ("a:1", "ws://a:65536", bad_port),
        ("a:1", "ws://u@a:1", "no user before the host: ws://HOST:PORT/PATH"),
        ("a:1", "ws://a:1/#f", no_target),
        ("a:1", "ws://a b:1", no_target),
        ("a:1", "wss://a:1", "wss:// is not supported; run socat or stunnel and give its address as TARGET"),
        ("a:1", "http://a:1/", no_target),
    ):
        told = (2, b"", f"bad address\n  {advice}\n".encode())
        assert run("tap", listen, target, "1") == told, (listen, target)
    with socket.create_server(("127.0.0.1", 0)) as taken:
        port = taken.getsockname()[1]
        assert run("tap", f"127.0.0.1:{port}", "a:1", "1") == (3, b"", b"not listening: address in use\n")
    assert run("tap", "no.such.host.invalid:1", "a:1", "1") == (3, b"", b"not listening: no such host\n  HOST:PORT to listen at, up to 65535: localhost:9001\n")
    for word in ("0", "1001", "x", ""):
        told = run("tap", f"--at-once={word}", "127.0.0.1:0", "a:1")
        assert told == (2, b"", b"bad at-once\n  a whole number, 1 to 1000: --at-once 16\n"), word
        assert run("tap", "--at-once", word, "127.0.0.1:0", "a", "1") == (2, b"", f"bad address\n  {no_target}\n".encode()), word


def a_server_and_a_tester_of_ours():
    """`wst test` against `wst serve` by way of a tap: as without it."""
    server = Running()
    server.process = start("serve", "127.0.0.1:0", "3")
    port = server.line().rpartition(":")[2]
    tap = Tap(3, f"127.0.0.1:{port}")
    cases = ("1.1.2", "2.5", "6.1.1")
    status, output, faults = run("test", f"127.0.0.1:{tap.port}", *cases)
    wanted = "".join(f"{case} PASS\n" for case in cases) + "3 pass, 0 loose, 0 fail\n"
    assert (status, output.decode(), faults) == (0, wanted, b"")
    lines = list(iter(tap.line, ""))
    assert lines[:2] == ["1 > GET / HTTP/1.1", "1 < HTTP/1.1 101 Switching Protocols"], lines
    ends = [line for line in lines if " end " in line]
    assert [line.split()[0] for line in ends] == ["1", "2", "3"] and not any("broken" in line for line in ends), ends


TESTS = [
    a_connection,
    in_512_kib_of_stack,
    a_line_once_its_frame_is_whole,
    frames_that_come_with_the_heads,
    heads_in_pieces,
    half_closes,
    resets,
    a_head_of_9000_bytes,
    an_answer_of_another_status,
    what_is_no_websocket,
    marks,
    much_both_ways_with_a_slow_reader,
    a_peer_that_takes_nothing_stops_the_other,
    a_hundred_connections,
    the_next_client_waits,
    no_connection,
    a_url_names_the_server,
    payloads_in_other_styles,
    output_that_nobody_reads,
    words_that_are_no_addresses,
    a_server_and_a_tester_of_ours,
]
