"""How `--max-fail` of `wst test` and `wst sweep` ends a run: behind the line of the last failure that is counted."""

from client_lines import ADDRESS, EMPTY_BACK, Listening, right_client
from hint_lines import ECHO, EMPTY_BINARY, answers_otherwise
from report_lines import test
from server import SECONDS, Tested, free_port, run
from sweep_lines import Refuses
from test_lines import passes
from wire import RESPONSE

FAIL = "1.1.1 FAIL Messages\n"


def the_first_failure_ends_a_run():
    server = Tested("--max-fail=1", "1.1.1", "1.1.1", "1.1.1")
    passes(server)
    assert server.line() == "1.1.1 PASS"
    answers_otherwise(server)
    server.ends("1 pass, 0 loose, 1 fail\n", status=1)
    assert server.has_no_more_clients()


def the_second_failure_ends_a_run():
    server = Tested("--max-fail=2", *["1.1.1"] * 4)
    answers_otherwise(server)
    passes(server)
    assert server.line() == "1.1.1 PASS"
    answers_otherwise(server)
    server.ends("1 pass, 0 loose, 2 fail\n", status=1)
    assert server.has_no_more_clients()


def fewer_failures_end_none():
    server = Tested("--max-fail=3", "1.1.1", "1.1.1", "1.1.1")
    answers_otherwise(server)
    passes(server)
    assert server.line() == "1.1.1 PASS"
    answers_otherwise(server)
    server.ends("1 pass, 0 loose, 2 fail\n", status=1)


def the_last_case_may_be_the_last_failure():
    server = Tested("--max-fail=2", "1.1.1", "1.1.1")
    answers_otherwise(server)
    answers_otherwise(server)
    server.ends("0 pass, 0 loose, 2 fail\n", status=1)


def the_hint_is_told_before():
    server = Tested("--max-fail=10", *["1.1.1"] * 12)
    for _ in range(10):
        answers_otherwise(server)
    server.ends("0 pass, 0 loose, 10 fail\n", status=1, faults=ECHO)


def a_missing_connection_counts():
    """With --timeout, where the third in a row ends a run by itself."""
    address = f"127.0.0.1:{free_port()}"
    refused = b"no connection: refused\n"
    tried = f"  tried {address}\n".encode()
    one, two = b"1.1.1 no connection\n", b"1.1.1 no connection\n1.1.1 no connection\n"
    cases = ["1.1.1"] * 4
    for words, told in (
        (("--max-fail=1", "--timeout=5"), (1, one + b"0 pass, 0 loose, 1 fail\n", refused)),
        (("--max-fail=2", "--timeout=5"), (1, two + b"0 pass, 0 loose, 2 fail\n", refused * 2)),
        (("--max-fail=3", "--timeout=5"), (3, two + one, refused * 3 + tried)),
        (("--max-fail=1",), (3, one, refused + tried)),
    ):
        assert run("test", *words, address, *cases) == told, words


def beside_an_earlier_run_a_known_fail_counts_for_nothing():
    """It is not what makes the status 1, and what is fixed is no failure."""
    verdicts = ["FAIL Messages", "PASS", "FAIL Messages", "FAIL Head Status"]
    told = test(["--known", "--max-fail=1"], verdicts, FAIL)[:3]
    changed = "1.1.1 PASS (was FAIL Messages)\n" + FAIL + "1.1.1 FAIL Head Status (was FAIL Messages)\n"
    counts = "1 pass, 0 loose, 3 fail\nknown: 2 same, 0 new, 1 fixed, 1 changed\n"
    assert told == (1, FAIL + changed + counts, ""), told


def beside_an_earlier_run_a_new_fail_counts():
    """Nothing is known of the case."""
    server = Tested("--known", "--max-fail=1", "1.1.1", "1.1.1", "1.1.1")
    passes(server)
    assert server.line() == "1.1.1 PASS (new)"
    client = server.next()
    client.send(RESPONSE, EMPTY_BINARY)
    assert server.line() == "1.1.1 FAIL Messages (new)"
    client.close()
    server.ends("1 pass, 0 loose, 1 fail\nknown: 0 same, 1 new, 0 fixed, 1 changed\n", status=1)
    assert server.has_no_more_clients()


def a_document_is_closed():
    """And the total goes to the fault output."""
    server = Tested("--max-fail=1", "--junit", "1.1.1", "1.1.1")
    client = server.next()
    client.send(RESPONSE, EMPTY_BINARY)
    lines = list(iter(server.line, ""))
    client.close()
    assert lines[-2:] == ["</failure></testcase>", "</testsuite></testsuites>"], lines
    assert sum("<testcase" in line for line in lines) == 1, lines
    assert server.process.wait(SECONDS) == 1
    assert server.process.stderr.read() == b"0 pass, 0 loose, 1 fail\n"


def clients_that_fail():
    run_of = Listening("test", "--max-fail=1", ADDRESS, "1.1.1", "2.1", "2.5")
    right_client(run_of, "/runCase?case=1")
    assert run_of.line() == "1.1.1 PASS"
    client = run_of.client("/runCase?case=2")
    client.send(EMPTY_BACK)
    client.close()
    run_of.ends("2.1 FAIL Messages", "1 pass, 0 loose, 1 fail", status=1)


def clients_that_fail_less_often():
    run_of = Listening("test", "--max-fail=2", ADDRESS, "1.1.1", "2.1")
    client = run_of.client("/runCase?case=1")
    assert client.get(1) == b"\x81"
    client.close()
    assert run_of.line() == "1.1.1 FAIL Messages"
    run_of.is_told("/updateReports")
    run_of.ends("2.1 FAIL NotRun", "0 pass, 0 loose, 2 fail", status=1)


def a_sweep_ends_too():
    server = Refuses()
    line = b"FAIL Head Status: "
    status, output, faults = run("sweep", "--max-fail=2", server.address)
    assert (status, faults) == (1, b""), (status, faults)
    lines = output.splitlines()
    assert lines[:2] == [line + b"close=1000", line + b'text "a"; close=1000'], lines
    assert lines[2:] == [b"2 scripts: 0 pass, 0 loose, 2 fail"], lines


def a_sweep_of_clients_ends_too():
    run_of = Listening("sweep", "--max-fail=1", "--steps=1", ADDRESS)
    client = run_of.client("/runCase?case=2")
    assert client.get(1) == b"\x81"
    client.close()
    run_of.ends('FAIL Messages: text "a"; close=1000', "1 scripts: 0 pass, 0 loose, 1 fail", status=1)


TESTS = [
    the_first_failure_ends_a_run,
    the_second_failure_ends_a_run,
    fewer_failures_end_none,
    the_last_case_may_be_the_last_failure,
    the_hint_is_told_before,
    a_missing_connection_counts,
    beside_an_earlier_run_a_known_fail_counts_for_nothing,
    beside_an_earlier_run_a_new_fail_counts,
    a_document_is_closed,
    clients_that_fail,
    clients_that_fail_less_often,
    a_sweep_ends_too,
    a_sweep_of_clients_ends_too,
]
