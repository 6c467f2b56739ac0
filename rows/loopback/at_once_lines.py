"""`wst test --at-once` and `wst sweep --at-once`: several cases at a time at a server, and their lines in their order."""

import asyncio
import multiprocessing
import resource
import time

from server import SECONDS, Server, Tested, connected, free_port, run
from signal_lines import stop_and_go_on
from test_lines import passes
from wire import CLOSE_BACK, EMPTY_BACK, EMPTY_TEXT, MASKED_CLOSE, RESPONSE, request_to

PASS = "1.1.1 PASS\n"


def asked(server):
    """The server's end of the next connection, with its request."""
    client = server.next()
    request = request_to(server.address)
    assert client.get(len(request)) == request
    return client


def answers(client):
    """What is right in the case 1.1.1."""
    client.send(RESPONSE)
    assert client.get(len(EMPTY_TEXT)) == EMPTY_TEXT
    client.send(EMPTY_BACK)
    assert client.get(len(MASKED_CLOSE)) == MASKED_CLOSE
    client.send(CLOSE_BACK)
    client.close()


def is_ended(client):
    """The tester has ended the connection, one way or the other."""
    try:
        return client.rest() == b""
    except ConnectionResetError:
        return True


def lines_in_the_order_of_the_cases():
    server = Tested("--at-once=3", *["1.1.1"] * 3)
    first, second, third = (asked(server) for _ in range(3))
    answers(third)
    answers(second)
    assert server.says_nothing_for(0.3)
    answers(first)
    server.ends(PASS * 3 + "3 pass, 0 loose, 0 fail\n")


def each_line_as_soon_as_those_before_it():
    server = Tested("--at-once=3", *["1.1.1"] * 4)
    first, second, third = (asked(server) for _ in range(3))
    answers(second)
    answers(first)
    assert (server.line(), server.line()) == ("1.1.1 PASS",) * 2
    answers(third)
    assert server.line() == "1.1.1 PASS"
    answers(asked(server))
    server.ends(PASS + "4 pass, 0 loose, 0 fail\n")


def others_go_on_while_the_oldest_hangs():
    server = Tested("--at-once=2", *["1.1.1"] * 20)
    first = asked(server)
    for _ in range(19):
        answers(asked(server))
    assert server.says_nothing_for(0.3)
    answers(first)
    server.ends(PASS * 20 + "20 pass, 0 loose, 0 fail\n")


def no_more_than_so_many_at_a_time():
    server = Tested("--at-once=2", *["1.1.1"] * 3)
    first, second = asked(server), asked(server)
    time.sleep(0.3)
    assert server.has_no_more_clients()
    server.listener.settimeout(SECONDS)
    answers(second)
    answers(asked(server))
    answers(first)
    server.ends(PASS * 3 + "3 pass, 0 loose, 0 fail\n")


def one_at_a_time():
    for words in (("--at-once=1",), ()):
        server = Tested(*words, *["1.1.1"] * 2)
        client = asked(server)
        time.sleep(0.3)
        assert server.has_no_more_clients()
        server.listener.settimeout(SECONDS)
        answers(client)
        assert server.line() == "1.1.1 PASS"
        passes(server)
        server.ends(PASS + "2 pass, 0 loose, 0 fail\n")


def names_as_the_cases_begin():
    server = Tested("--at-once=2", "--progress", "1.1.1", "1.1.2", "1.1.1")
    first, second = asked(server), server.next()
    time.sleep(0.3)
    first.reset()
    second.reset()
    assert server.line() == "1.1.1 no connection"
    assert server.process.wait(SECONDS) == 3
    assert server.process.stderr.read() == b"1.1.1\n1.1.2\nno connection: closed before the answer\n"


def the_third_missing_connection_in_their_order():
    """Counted in the order of the cases: what is behind it isn't told, and what runs is ended."""
    server = Tested("--at-once=5", "--timeout=5", *["1.1.1"] * 9)
    clients = [asked(server) for _ in range(5)]
    answers(clients[3])
    for client in (clients[2], clients[1]):
        client.close()
    more = [asked(server) for _ in range(3)]
    assert server.says_nothing_for(0.3)
    clients[0].close()
    closed = b"no connection: closed before the answer\n"
    server.ends("1.1.1 no connection\n" * 3, status=3, faults=closed * 3)
    for client in (clients[4], *more):
        assert is_ended(client)


def one_that_answers_between():
    server = Tested("--at-once=4", "--timeout=5", *["1.1.1"] * 5)
    clients = [asked(server) for _ in range(4)]
    for client in (clients[3], clients[1], clients[0]):
        client.close()
    answers(clients[2])
    answers(asked(server))
    lines = "1.1.1 no connection\n" * 2 + PASS + "1.1.1 no connection\n" + PASS
    closed = b"no connection: closed before the answer\n"
    server.ends(lines + "2 pass, 0 loose, 3 fail\n", status=1, faults=closed * 3)


def without_a_limit_the_first_missing_connection():
    server = Tested("--at-once=3", *["1.1.1"] * 4)
    clients = [asked(server) for _ in range(3)]
    clients[1].close()
    assert server.says_nothing_for(0.3)
    answers(clients[0])
    faults = b"no connection: closed before the answer\n"
    server.ends(PASS + "1.1.1 no connection\n", status=3, faults=faults)
    assert is_ended(clients[2])


def where_nobody_listens():
    address = f"127.0.0.1:{free_port()}"
    refused = b"no connection: refused\n"
    tried = f"  tried {address}\n".encode()
    line = b"1.1.1 no connection\n"
    cases = ["1.1.1"] * 8
    assert run("test", "--at-once=5", "--timeout=5", address, *cases) == (3, line * 3, refused * 3 + tried)
    assert run("test", "--at-once=5", address, *cases) == (3, line, refused + tried)
    told = (3, b"1.1.1 no connection\n", b"no connection: no such host\n  HOST:PORT, up to 65535, or with a path ws://localhost:9001/chat\n")
    assert run("test", "--at-once=5", "no.such.host.invalid:9", *cases) == told


def the_second_failure_ends_a_run():
    """Counted in the order of the cases too; the total is that of what was told."""
    server = Tested("--at-once=4", "--max-fail=2", *["1.1.1"] * 6)
    clients = [asked(server) for _ in range(4)]
    for client in (clients[2], clients[1]):
        client.send(RESPONSE)
        assert client.get(len(EMPTY_TEXT)) == EMPTY_TEXT
        client.send(b"\x82\x00")
        client.rest()
        client.close()
    assert server.says_nothing_for(0.3)
    answers(clients[0])
    server.ends(PASS + "1.1.1 FAIL Messages\n" * 2 + "1 pass, 0 loose, 2 fail\n", status=1)
    assert is_ended(clients[3])


def a_run_that_is_stopped_and_goes_on():
    server = Tested("--at-once=3", "--timeout=30", *["1.1.1"] * 3)
    clients = [asked(server) for _ in range(3)]
    stop_and_go_on(server.process)
    answers(clients[2])
    stop_and_go_on(server.process)
    answers(clients[1])
    stop_and_go_on(server.process)
    answers(clients[0])
    server.ends(PASS * 3 + "3 pass, 0 loose, 0 fail\n")


def a_wait_is_told_of_the_oldest():
    server = Tested("--at-once=2", "--timeout=none", "1.1.1", "1.1.2", "1.1.1")
    first, second = asked(server), asked(server)
    second.send(b"HTTP/1.1 400 Bad Request\r\n\r\n")
    third = asked(server)
    time.sleep(11)
    answers(first)
    answers(third)
    server.ends("1.1.1 PASS\n1.1.2 FAIL Head Status\n1.1.1 PASS\n2 pass, 0 loose, 1 fail\n", status=1,
                faults=b"still waiting: 1.1.1 (--timeout SECONDS ends a wait)\n")


def all_cases_at_the_own_server():
    """As one at a time, byte for byte."""
    server = Server(480, "--at-once", "16")
    several = run("test", "--at-once", "16", server.address, seconds=60)
    one = run("test", server.address, seconds=60)
    assert several == one, several
    assert several[0] == 0 and several[1].endswith(b"\n240 pass, 0 loose, 0 fail\n"), several
    server.process.kill()


def all_short_scripts_at_the_own_server():
    server = Server(1514, "--at-once", "16")
    several = run("sweep", "--at-once", "16", server.address, seconds=60)
    one = run("sweep", server.address, seconds=60)
    assert several == one, several
    assert several == (0, b"757 scripts: 757 pass, 0 loose, 0 fail\n", b""), several
    server.process.kill()


def few_open_files():
    """A connection is closed as soon as its case is over, also where the oldest hangs. Where the system lets none be
    begun, there is no connection."""
    def few():
        resource.setrlimit(resource.RLIMIT_NOFILE, (32, 32))

    server = Tested("--at-once=16", *["1.1.1"] * 200, before=few)
    first = asked(server)
    for _ in range(199):
        answers(asked(server))
    assert server.says_nothing_for(0.1)
    answers(first)
    server.ends(PASS * 200 + "200 pass, 0 loose, 0 fail\n")

    server = Tested("--at-once=100", *["1.1.1"] * 100, backlog=128, before=few)
    clients = [asked(server)]
    server.listener.settimeout(1)
    try:
        while True:
            clients.append(asked(server))
    except TimeoutError:
        pass
    for client in clients:
        answers(client)
    count = len(clients)
    assert 16 <= count < 32, count
    server.ends(PASS * count + "1.1.1 no connection\n", status=3, faults=b"no connection: failed\n")


def slow_server(port):
    """In a process of its own, a server of the case 1.1.1 that waits 20 ms before it answers a request."""
    async def serve(reader, writer):
        if not await reader.read(len(request_to(f"127.0.0.1:{port}"))):
            return
        await asyncio.sleep(0.02)
        for answer, asks in ((RESPONSE, EMPTY_TEXT), (EMPTY_BACK, MASKED_CLOSE), (CLOSE_BACK, b"")):
            writer.write(answer)
            await reader.readexactly(len(asks))
        writer.close()

    async def listen():
        listening = await asyncio.start_server(serve, "127.0.0.1", port, backlog=128)
        await listening.serve_forever()

    process = multiprocessing.Process(target=lambda: asyncio.run(listen()), daemon=True)
    process.start()
    connected(port).close()
    return process


def sixteen_at_a_time_take_an_eighth():
    """Once at least of three times: others use the machine too."""
    port = free_port()
    server = slow_server(port)
    parts = []
    while len(parts) < 3 and not any(part <= 1 / 8 for part in parts):
        one, several = (seconds_of(port, *words) for words in ((), ("--at-once=16",)))
        parts.append(several / one)
    server.kill()
    assert any(part <= 1 / 8 for part in parts), parts


def seconds_of(port, *words):
    """How long a case takes at this port 240 times."""
    began = time.monotonic()
    told = run("test", *words, f"127.0.0.1:{port}", *["1.1.1"] * 240, seconds=60)
    assert told[0] == 0, told
    return time.monotonic() - began


TESTS = [
    lines_in_the_order_of_the_cases,
    each_line_as_soon_as_those_before_it,
    others_go_on_while_the_oldest_hangs,
    no_more_than_so_many_at_a_time,
    one_at_a_time,
    names_as_the_cases_begin,
    the_third_missing_connection_in_their_order,
    one_that_answers_between,
    without_a_limit_the_first_missing_connection,
    where_nobody_listens,
    the_second_failure_ends_a_run,
    a_run_that_is_stopped_and_goes_on,
    a_wait_is_told_of_the_oldest,
    all_cases_at_the_own_server,
    all_short_scripts_at_the_own_server,
    few_open_files,
    sixteen_at_a_time_take_an_eighth,
]
