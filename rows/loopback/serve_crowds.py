"""Several clients of `wst serve` at once."""

import random
import resource
import select
import signal
import subprocess
import threading
import time

from server import SECONDS, WST, Client, Running, Server, connected, free_port, run, start
from wire import BAD_REQUEST, CLOSE, CLOSE_BACK, HELLO, HELLO_BACK, REQUEST, RESPONSE, binary

FULL = b"cannot accept another connection until one ends\n  raise the limit of open files: ulimit -n 4096\n"


def opened(server):
    """A client whose request was accepted."""
    client = server.client()
    client.send(REQUEST)
    assert client.get(len(RESPONSE)) == RESPONSE
    return client


def is_served(client):
    client.send(HELLO)
    assert client.get(len(HELLO_BACK)) == HELLO_BACK


def is_closed(client):
    client.send(CLOSE)
    assert client.rest() == CLOSE_BACK
    client.close()


def says_nothing(client, seconds):
    return not select.select([client.stream], [], [], seconds)[0]


def lines_in_the_order_of_their_ends():
    server = Server(3, "--at-once", "3")
    clients = [opened(server) for _ in range(3)]
    for client in clients * 2:
        is_served(client)
    for number in (2, 3, 1):
        is_closed(clients[number - 1])
        assert server.line() == f"{number} clean 1000"
    server.ends()


def one_that_sends_slowly():
    """Of five clients one sends its request a byte each half second: the others are served meanwhile."""
    server = Server(5, "--at-once", "5")
    slow = server.client()
    clients = [opened(server) for _ in range(4)]
    began = time.monotonic()
    for byte in REQUEST[:4]:
        slow.send(bytes([byte]))
        for client in clients:
            is_served(client)
        assert server.says_nothing_for(0.5)
    assert time.monotonic() - began < 4
    for number, client in enumerate(clients, 2):
        is_closed(client)
        assert server.line() == f"{number} clean 1000"
    slow.send(REQUEST[4:])
    assert slow.get(len(RESPONSE)) == RESPONSE
    is_closed(slow)
    server.ends("1 clean 1000")


def one_that_never_reads():
    """A client that sends without an end, and reads nothing, keeps none waiting, and is read only so far."""
    server = Server(3, "--at-once", "2")
    deaf = opened(server)
    deaf.stream.settimeout(0.5)
    sent = 0
    message = binary(1 << 20)
    try:
        while sent < 256 << 20:
            sent += deaf.stream.send(message)
    except TimeoutError:
        pass
    assert sent < 256 << 20
    for number in (2, 3):
        client = opened(server)
        is_served(client)
        is_closed(client)
        assert server.line() == f"{number} clean 1000"
    deaf.reset()
    server.ends("1 stopped")


def one_killed_in_each_state():
    """A client that goes away, wherever it stands, takes none of the others with it."""
    server = Server(7, "--at-once", "7")
    stays = opened(server)
    begun = (b"", REQUEST[:40], REQUEST, REQUEST + HELLO[:3], REQUEST + HELLO, REQUEST + binary(1 << 20))
    for number, sent in enumerate(begun, 2):
        client = server.client()
        client.send(sent)
        if len(sent) >= len(REQUEST):
            assert client.get(len(RESPONSE)) == RESPONSE
        is_served(stays)
        client.reset()
        assert server.line() == f"{number} stopped"
        is_served(stays)
    is_closed(stays)
    server.ends("1 clean 1000")


def no_more_than_may_be():
    """A third client waits until one of two has gone."""
    server = Server(3, "--at-once", "2")
    clients = [opened(server) for _ in range(2)]
    third = server.client()
    third.send(REQUEST)
    assert says_nothing(third, 0.5)
    is_served(clients[0])
    is_closed(clients[1])
    assert server.line() == "2 clean 1000"
    assert third.get(len(RESPONSE)) == RESPONSE
    is_closed(third)
    is_closed(clients[0])
    server.ends("3 clean 1000", "1 clean 1000")


def nobody_behind_the_last():
    """Where two are to be served, a third gets nothing, though five could be there."""
    server = Server(2, "--at-once", "5")
    clients = [opened(server) for _ in range(2)]
    third = server.client()
    third.send(REQUEST)
    assert says_nothing(third, 0.5)
    for client in clients:
        is_closed(client)
    server.ends("1 clean 1000", "2 clean 1000")
    try:
        assert third.rest() == b""
    except ConnectionResetError:
        pass


def without_a_count():
    """A server without COUNT goes on until it is ended."""
    for options in ((), ("--at-once", "4")):
        server = Running()
        port = free_port()
        server.process = start("serve", *options, f"127.0.0.1:{port}")
        assert server.line() == f"listening on 127.0.0.1:{port}"
        for number in range(1, 4):
            client = Client(connected(port))
            client.send(REQUEST, HELLO, CLOSE)
            assert client.rest() == RESPONSE + HELLO_BACK + CLOSE_BACK
            client.close()
            assert server.line() == f"{number} clean 1000"
        server.process.send_signal(signal.SIGTERM)
        assert server.process.wait(SECONDS) == -signal.SIGTERM
        assert server.line() == ""


def stopped_and_continued():
    """A server that is stopped for a while goes on with all its clients."""
    server = Server(4, "--at-once", "4", "--timeout", "5")
    clients = [opened(server) for _ in range(4)]
    for _ in range(3):
        server.process.send_signal(signal.SIGSTOP)
        for client in clients:
            client.send(HELLO)
        time.sleep(0.3)
        server.process.send_signal(signal.SIGCONT)
        for client in clients:
            assert client.get(len(HELLO_BACK)) == HELLO_BACK
    for number, client in enumerate(clients, 1):
        is_closed(client)
        assert server.line() == f"{number} clean 1000"
    server.ends()


def each_has_its_own_time():
    """The silence of one ends one."""
    server = Server(3, "--at-once", "3", "--timeout", "1")
    silent, loud, late = (opened(server) for _ in range(3))
    began = time.monotonic()
    while time.monotonic() - began < 1.5:
        is_served(loud)
        is_served(late)
        time.sleep(0.1)
    assert server.line() == "1 stopped"
    is_closed(late)
    assert server.line() == "3 clean 1000"
    is_closed(loud)
    server.ends("2 clean 1000")
    silent.close()


def few_descriptors():
    """Where descriptors run out that is told once, and further clients are taken when one has gone."""
    clients = 40
    server = Running()
    port = free_port()
    limit = (32, 32)
    server.process = start(
        "serve",
        "--at-once",
        "100",
        f"127.0.0.1:{port}",
        str(clients),
        before=lambda: resource.setrlimit(resource.RLIMIT_NOFILE, limit),
    )
    assert server.line() == f"listening on 127.0.0.1:{port}"
    waiting = [Client(connected(port)) for _ in range(clients)]
    for client in waiting:
        client.send(REQUEST)
    served = 0
    while served < clients:
        ready, _, _ = select.select([client.stream for client in waiting], [], [], SECONDS)
        assert ready, served
        client = next(client for client in waiting if client.stream is ready[0])
        assert client.get(len(RESPONSE)) == RESPONSE
        is_closed(client)
        waiting.remove(client)
        served += 1
    numbers = sorted(int(server.line().removesuffix(" clean 1000")) for _ in range(clients))
    assert numbers == list(range(1, clients + 1))
    assert server.line() == ""
    assert server.process.wait(SECONDS) == 0
    assert server.process.stderr.read() == FULL


def each_number_once():
    """Many clients that end by chance: each has one line, and its own number."""
    chance = random.Random(6455)
    clients = 60
    server = Server(clients, "--at-once", "16")
    ended = []

    def comes():
        client = server.client()
        client.send(REQUEST)
        assert client.get(len(RESPONSE)) == RESPONSE
        for _ in range(chance.randrange(4)):
            is_served(client)
        time.sleep(chance.random() / 50)
        is_closed(client)
        ended.append(client)

    threads = [threading.Thread(target=comes) for _ in range(clients)]
    for thread in threads:
        thread.start()
    lines = [server.line() for _ in range(clients)]
    for thread in threads:
        thread.join(SECONDS)
    assert len(ended) == clients
    numbers = [int(line.removesuffix(" clean 1000")) for line in lines]
    assert sorted(numbers) == list(range(1, clients + 1))
    assert all(number <= place + 16 for place, number in enumerate(numbers)), numbers
    server.ends()


def refused_and_lost_among_others():
    server = Server(3, "--at-once", "3")
    stays = opened(server)
    refused = server.client()
    refused.send(b"GET / HTTP/1.1\r\nHost: x\r\n\r\n")
    assert refused.rest() == BAD_REQUEST
    assert server.line() == "2 refused Upgrade"
    lost = server.client()
    lost.half_close()
    assert lost.rest() == b""
    assert server.line() == "3 stopped"
    is_served(stays)
    is_closed(stays)
    server.ends("1 clean 1000")


def all_cases_of_several_testers():
    """Four runs of the first cases at once, each over a connection of its own: all pass."""
    cases = ("1.1.*", "1.2.*", "2.*", "3.*")
    server = Server(4000, "--at-once", "16")
    runs = [
        subprocess.Popen([WST, "test", server.address, some], stdout=subprocess.PIPE, stderr=subprocess.PIPE)
        for some in cases
    ]
    for tester in runs:
        output, faults = tester.communicate(timeout=6 * SECONDS)
        assert tester.returncode == 0 and faults == b"", (output, faults)
    server.process.kill()


def numbers_that_are_none():
    for word in ("", "0", "01", "1001", "-1", "+1", "x", "1.5"):
        told = run("serve", f"--at-once={word}", "--limit", "0", "127.0.0.1:1", "1")
        assert told == (2, b"", b"bad at-once\n  a whole number, 1 to 1000: --at-once 16\n"), word
    for word in ("1", "1000"):
        assert run("serve", "--at-once", word, "--limit", "0", "127.0.0.1:1", "1") == (2, b"", b"bad limits\n"), word


TESTS = [
    lines_in_the_order_of_their_ends,
    one_that_sends_slowly,
    one_that_never_reads,
    one_killed_in_each_state,
    no_more_than_may_be,
    nobody_behind_the_last,
    without_a_count,
    stopped_and_continued,
    each_has_its_own_time,
    few_descriptors,
    each_number_once,
    refused_and_lost_among_others,
    all_cases_of_several_testers,
    numbers_that_are_none,
]
