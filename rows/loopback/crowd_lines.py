"""What `wst test --role client` and `wst send --role client` do where several clients are there at a time: one is under
test, who asks for a case besides waits for its turn, and what can be told is told at once."""

import os
import signal
import time

from client_lines import ADDRESS, CLOSE, CLOSE_BACK, EMPTY_BACK, EMPTY_TEXT, Listening, request_for, right_client
from server import SECONDS
from wire import RESPONSE


def under_test(run, path="/"):
    """A client that has got the first turn of the case 1.1.1 and hasn't answered it."""
    client = run.client(path)
    assert client.get(len(EMPTY_TEXT)) == EMPTY_TEXT
    return client


def goes_on(client):
    """It does right in the rest of the case."""
    client.send(EMPTY_BACK)
    assert client.get(len(CLOSE)) == CLOSE
    client.send(CLOSE_BACK)
    assert client.rest() == b""
    client.close()


def turns_in_the_order_of_arrival():
    """Each gets its response at once, and nothing of its case before it is its turn."""
    run = Listening("test", ADDRESS, "1.1.1", "1.1.1", "1.1.1")
    first = under_test(run)
    others = [run.client(), run.client()]
    time.sleep(0.3)
    for other in others:
        other.stream.settimeout(0.1)
        try:
            assert other.stream.recv(1) is None
        except TimeoutError:
            pass
        other.stream.settimeout(SECONDS)
    goes_on(first)
    assert run.line() == "1.1.1 PASS"
    for other in others:
        assert other.get(len(EMPTY_TEXT)) == EMPTY_TEXT
        goes_on(other)
        assert run.line() == "1.1.1 PASS"
    run.ends("3 pass, 0 loose, 0 fail")


def silent_clients_hold_nobody_back():
    """One that has sent nothing, and one that has sent a part of its head."""
    run = Listening("test", ADDRESS, "1.1.1", "1.1.1")
    silent, slow = run.connected(), run.connected()
    slow.send(request_for("/")[:50])
    right_client(run)
    assert run.line() == "1.1.1 PASS"
    slow.send(request_for("/")[50:])
    assert slow.get(len(RESPONSE)) == RESPONSE
    assert slow.get(len(EMPTY_TEXT)) == EMPTY_TEXT
    goes_on(slow)
    run.ends("1.1.1 PASS", "2 pass, 0 loose, 0 fail")
    silent.close()


def a_silent_head_has_the_time_limit():
    """It is ended in its time, while a case goes on that has none."""
    run = Listening("test", "--timeout=1", "--deadline=20", ADDRESS, "1.1.1")
    silent = run.connected()
    begun = time.monotonic()
    assert silent.rest() == b""
    assert 0.8 < time.monotonic() - begun < 8
    silent.close()
    right_client(run)
    run.ends("1.1.1 PASS", "1 pass, 0 loose, 0 fail")


def texts_are_told_at_once():
    """While a case goes on, and by how the cases stand then."""
    run = Listening("test", ADDRESS, "1.1.1", "1.1.1")
    first = under_test(run, "/runCase?case=1")
    run.is_told("/getCaseCount", "2")
    run.is_told("/getCaseStatus?case=1", '{"behavior":"UNIMPLEMENTED"}')
    run.is_told("/getCaseInfo?case=2", '{"id":"1.1.1","description":"2 turns"}')
    goes_on(first)
    assert run.line() == "1.1.1 PASS"
    run.is_told("/getCaseStatus?case=1", '{"behavior":"OK"}')
    run.is_told("/updateReports")
    run.ends("1.1.1 FAIL NotRun", "1 pass, 0 loose, 1 fail", status=1)


def the_end_is_asked_for_in_a_case():
    """It is answered at once, and the run ends behind those who waited before: who comes later is left."""
    run = Listening("test", ADDRESS, "1.1.1", "1.1.1", "1.1.1")
    first = under_test(run)
    waiting = run.client()
    run.is_told("/updateReports")
    late = run.client()
    assert late.rest() == b""
    assert run.says_nothing_for(0.3)
    goes_on(first)
    assert run.line() == "1.1.1 PASS"
    assert waiting.get(len(EMPTY_TEXT)) == EMPTY_TEXT
    goes_on(waiting)
    run.ends("1.1.1 PASS", "1.1.1 FAIL NotRun", "2 pass, 0 loose, 1 fail", status=1)


def a_refused_request_in_a_case():
    run = Listening("test", ADDRESS, "1.1.1")
    first = under_test(run)
    other = run.asks(b"PUT / HTTP/1.1\r\nHost: server.example.com\r\n\r\n")
    assert other.startswith(b"HTTP/1.1 4"), other
    goes_on(first)
    run.ends("1.1.1 PASS", "1 pass, 0 loose, 0 fail", faults=b"refused Method\n")


def one_that_stops_early():
    """It ends its connection while it waits, or in its case: the next one has its turn."""
    run = Listening("test", ADDRESS, "1.1.1", "1.1.1", "1.1.1")
    first = under_test(run)
    gone, last = run.client(), run.client()
    gone.close()
    first.close()
    assert run.line() == "1.1.1 FAIL Messages"
    assert run.line() == "1.1.1 FAIL End"
    assert last.get(len(EMPTY_TEXT)) == EMPTY_TEXT
    goes_on(last)
    run.ends("1.1.1 PASS", "1 pass, 0 loose, 2 fail", status=1)


def many_clients():
    """Forty at a time, each of which asks for its case before the first one has answered."""
    run = Listening("test", ADDRESS, *["1.1.1"] * 40)
    first = under_test(run)
    others = [run.client() for _ in range(39)]
    goes_on(first)
    assert run.line() == "1.1.1 PASS"
    for other in others:
        assert other.get(len(EMPTY_TEXT)) == EMPTY_TEXT
        goes_on(other)
        assert run.line() == "1.1.1 PASS"
    run.ends("40 pass, 0 loose, 0 fail")


def the_wait_counts_for_requests():
    """Not while a case goes on, and whoever sends no whole request makes it no longer."""
    run = Listening("test", "--wait=2", "--timeout=none", ADDRESS, "1.1.1", "1.1.1")
    first = under_test(run)
    time.sleep(2.5)
    goes_on(first)
    begun = time.monotonic()
    assert run.line() == "1.1.1 PASS"
    silent = []
    while run.says_nothing_for(0.3):
        silent.append(run.connected())
        assert time.monotonic() - begun < 10
    took = time.monotonic() - begun
    assert 1.7 < took < 6, took
    told = b"no client for 2 seconds: 1 of 2 cases were run\n"
    run.ends("1.1.1 FAIL NotRun", "1 pass, 0 loose, 1 fail", status=1, faults=told)


def signals_take_nothing_off_a_wait():
    """Nor do they begin a limit anew."""
    run = Listening("test", "--wait=2", "--timeout=1", ADDRESS, "1.1.1")
    silent = run.connected()
    begun = time.monotonic()
    while run.process.poll() is None and time.monotonic() - begun < 8:
        os.kill(run.process.pid, signal.SIGCONT)
        time.sleep(0.01)
    took = time.monotonic() - begun
    assert 1.8 < took < 6, took
    run.ends("1.1.1 FAIL NotRun", "0 pass, 0 loose, 1 fail", status=1, faults=b"no client for 2 seconds: 0 of 1 cases were run\n")
    silent.close()


def a_client_is_read_while_it_is_written_to():
    """It sends 8 MB of pings before it reads anything."""
    run = Listening("test", "--timeout=10", "--budget=67108864", ADDRESS, "1.1.8")
    client = run.client()
    client.stream.settimeout(30)
    client.send(bytes.fromhex("898000000000") * 1_400_000)
    length = 65536
    wanted = b"\x81\x7f" + length.to_bytes(8, "big") + b"*" * length
    got = client.get(len(wanted))
    client.send(b"\x81\xff" + length.to_bytes(8, "big") + b"\x00" * 4 + got[10:])
    assert client.get(len(CLOSE)) == CLOSE
    client.send(CLOSE_BACK)
    client.rest()
    client.close()
    got = run.line()
    assert got in ("1.1.8 PASS", "1.1.8 LOOSE OwnPings") or got.startswith("1.1.8 "), got
    assert "End" not in got, got
    run.process.wait(SECONDS)


def a_script_to_the_first_whose_request_is_whole():
    """Lines stand there as the run goes on: before the client has answered the next turn."""
    run = Listening("send", ADDRESS, told="faults", text=b'text "a"\nwait\ntext "b"\nwait\nclose=1000\n')
    silent = run.connected()
    client = run.client("/whatever")
    assert client.get(3) == b"\x81\x01a"
    assert run.line() == "turn 1"
    assert run.line().startswith("> 0 text")
    client.send(bytes.fromhex("81810000000061"))
    assert run.line().startswith("< 0 text")
    assert client.get(3) == b"\x81\x01b"
    assert run.line() == "turn 2"
    assert run.line().startswith("> 3 text")
    client.send(bytes.fromhex("81810000000062"))
    assert run.line().startswith("< 7 text")
    assert client.get(len(CLOSE)) == CLOSE
    client.send(CLOSE_BACK)
    assert client.rest() == b""
    lines = list(iter(run.line, ""))
    assert lines[0] == "turn 3" and lines[-1] == "end tester", lines
    assert run.process.wait(SECONDS) == 0
    silent.close()


TESTS = [
    turns_in_the_order_of_arrival,
    silent_clients_hold_nobody_back,
    a_silent_head_has_the_time_limit,
    texts_are_told_at_once,
    the_end_is_asked_for_in_a_case,
    a_refused_request_in_a_case,
    one_that_stops_early,
    many_clients,
    the_wait_counts_for_requests,
    signals_take_nothing_off_a_wait,
    a_client_is_read_while_it_is_written_to,
    a_script_to_the_first_whose_request_is_whole,
]
