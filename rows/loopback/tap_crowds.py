"""Several connections that `wst tap` forwards at once."""

import random
import resource
import select
import threading

from serve_crowds import FULL
from server import SECONDS, Client, free_port
from tap_lines import ANSWERED, ASKED, HEARD, MUCH, SAID, Tap, end_in_turn, ends_of_reset, reset_in
from wire import HELLO, HELLO_BACK, REQUEST, RESPONSE

MANY = 100
FEW = 40


class Crowd(Tap):
    """A tap with several connections, whose lines are told apart by their numbers."""

    def __init__(self, count, at_once, target=None, before=None, options=()):
        super().__init__(count, target, before, (f"--at-once={at_once}", *options))
        self.kept = {}

    def next_line_of(self, number):
        """The next line of this connection: those of others are kept."""
        while not self.kept.get(number):
            line = self.line()
            assert line, self.kept
            self.kept.setdefault(int(line.split()[0]), []).append(line)
        return self.kept[number].pop(0)

    def tells_of(self, number, *lines):
        for line in lines:
            assert self.next_line_of(number) == f"{number} {line}", (number, line)

    def joined(self):
        """A connection whose handshake is over, and its number."""
        client, server = self.pair()
        client.send(REQUEST)
        assert server.get(len(REQUEST)) == REQUEST
        server.send(RESPONSE)
        assert client.get(len(RESPONSE)) == RESPONSE
        self.tells_of(self.number, ASKED, ANSWERED)
        return client, server, self.number

    def passes_on(self, client, server, number):
        client.send(HELLO)
        assert server.get(len(HELLO)) == HELLO
        server.send(HELLO_BACK)
        assert client.get(len(HELLO_BACK)) == HELLO_BACK


def each_beside_the_others():
    """Three connections: what one sends is told at once, with its number, and each ends when it does."""
    tap = Crowd(3, 3)
    all_three = [tap.joined() for _ in range(3)]
    for client, server, number in all_three + all_three[::-1]:
        tap.passes_on(client, server, number)
    for client, server, number in all_three:
        said, heard = SAID, HEARD
        tap.tells_of(number, said, heard)
        tap.tells_of(number, SAID.replace("0 text", "11 text"), HEARD.replace("0 text", "7 text"))
    for client, server, number in (all_three[1], all_three[2], all_three[0]):
        end_in_turn(client, server)
        tap.tells_of(number, "end client")
    tap.ends()


def the_third_waits_for_an_end():
    tap = Crowd(3, 2)
    first, second = tap.joined(), tap.joined()
    third = tap.client()
    third.send(REQUEST)
    assert tap.says_nothing_for(0.2)
    tap.passes_on(*first)
    tap.passes_on(*second)
    tap.tells_of(1, SAID, HEARD)
    tap.tells_of(2, SAID, HEARD)
    end_in_turn(*first[:2])
    tap.tells_of(1, "end client")
    tap.number += 1
    server = Client(tap.listener.accept()[0])
    assert server.get(len(REQUEST)) == REQUEST
    tap.tells_of(3, ASKED)
    end_in_turn(third, server)
    tap.tells_of(3, "end client")
    end_in_turn(*second[:2])
    tap.tells_of(2, "end client")
    tap.ends()


def one_that_reads_nothing():
    """Of two connections one server reads nothing: the other connection goes on."""
    tap = Crowd(2, 2)
    stuck, other = tap.joined(), tap.joined()
    told = []
    reader = threading.Thread(target=lambda: told.extend(line for line in iter(tap.line, "") if line.startswith("2 ")))
    reader.start()
    stuck[0].stream.setblocking(False)
    frame, sent, still = HELLO * 6000, 0, 0
    while still < 10:
        try:
            sent += stuck[0].stream.send(frame)
            still = 0
        except BlockingIOError:
            select.select([], [stuck[0].stream], [], 0.1)
            still += 1
    assert sent < MUCH, sent
    for _ in range(10):
        tap.passes_on(*other)
    end_in_turn(*other[:2])
    stuck[0].reset()
    stuck[1].close()
    reader.join(SECONDS)
    assert len(told) == 21 and told[-1] == "2 end client", told


def ends_of_any_kind_among_others():
    """One is reset, of one the server is closed, and one goes on all the time."""
    tap = Crowd(3, 3)
    whole, cut, closed = tap.joined(), tap.joined(), tap.joined()
    tap.passes_on(*whole)
    cut[0].reset()
    tap.tells_of(2, "end broken")
    tap.passes_on(*whole)
    end_in_turn(closed[1], closed[0])
    tap.tells_of(3, "end server")
    tap.passes_on(*whole)
    end_in_turn(*whole[:2])
    lines = [tap.next_line_of(1) for _ in range(7)]
    assert lines[-1] == "1 end client", lines
    tap.ends()


def resets_beside_one_that_goes_on():
    """A reset of either end, in each state of its connection: the other connection goes on."""
    tap = Crowd(11, 2)
    whole = tap.joined()
    for who in (0, 1):
        for state in range(5):
            ends = tap.pair() if state < 2 else tap.joined()[:2]
            reset_in(state, ends, who)
            tap.passes_on(*whole)
            assert tap.next_line_of(tap.number) in ends_of_reset(tap.number, state, who)
            ends[1 - who].close()
    end_in_turn(*whole[:2])
    lines = [tap.next_line_of(1) for _ in range(21)]
    assert lines[-1] == "1 end client", lines
    tap.ends()


def a_server_that_takes_none():
    tap = Crowd(4, 4, f"127.0.0.1:{free_port()}")
    for client in [tap.client() for _ in range(4)]:
        assert client.rest() == b""
    assert sorted(tap.line() for _ in range(4)) == [f"{number} no connection" for number in range(1, 5)]
    tap.ends()


def descriptors_for_both_ends():
    """Where descriptors run out that is told once, and no client is taken without a connection to its server."""
    tap = Crowd(FEW, 100, before=lambda: resource.setrlimit(resource.RLIMIT_NOFILE, (32, 32)))
    waiting = [tap.client() for _ in range(FEW)]
    for client in waiting:
        client.send(REQUEST)
    for number in range(1, FEW + 1):
        server = Client(tap.listener.accept()[0])
        assert server.get(len(REQUEST)) == REQUEST
        tap.tells_of(number, ASKED)
        end_in_turn(waiting[number - 1], server)
        tap.tells_of(number, "end client")
    tap.ends(faults=FULL)


def a_hundred_at_once():
    """A hundred connections, each with messages in an order by chance, and each gets just its own."""
    tap = Crowd(MANY, MANY)
    source = random.Random(103)
    reader = threading.Thread(target=lambda: list(iter(tap.line, "")))
    pairs = []
    for _ in range(MANY):
        client, server = tap.pair()
        client.send(REQUEST)
        assert server.get(len(REQUEST)) == REQUEST
        server.send(RESPONSE)
        assert client.get(len(RESPONSE)) == RESPONSE
        pairs.append((client, server))
    reader.start()
    for _ in range(20 * MANY):
        client, server = source.choice(pairs)
        piece = source.randbytes(source.randrange(1, 400))
        one, other = (client, server) if source.random() < 0.5 else (server, client)
        one.send(piece)
        assert other.get(len(piece)) == piece
    for client, server in pairs:
        end_in_turn(client, server)
    reader.join(SECONDS)
    assert tap.process.wait(SECONDS) == 0


TESTS = [
    each_beside_the_others,
    the_third_waits_for_an_end,
    one_that_reads_nothing,
    ends_of_any_kind_among_others,
    resets_beside_one_that_goes_on,
    a_server_that_takes_none,
    descriptors_for_both_ends,
    a_hundred_at_once,
]
