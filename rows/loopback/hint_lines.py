"""What `wst test` says once where its first cases have one FAIL in common."""

from server import Tested
from test_lines import passes
from wire import RESPONSE

ECHO = b"every case so far is FAIL Messages: if the endpoint doesn't echo, add --expect protocol\n"
STATUS = (
    b"every case so far is FAIL Head Status: --explain shows the status; is the path right, and may anyone connect?\n"
)

# An empty binary message, where an empty text is due.
EMPTY_BINARY = b"\x82\x00"
FORBIDDEN = b"HTTP/1.1 403 Forbidden\r\nContent-Length: 0\r\n\r\n"


def answers_otherwise(server):
    client = server.next()
    client.send(RESPONSE, EMPTY_BINARY)
    assert server.line() == "1.1.1 FAIL Messages"
    client.close()


def lets_nobody_in(server):
    client = server.next()
    client.send(FORBIDDEN)
    assert server.line() == "1.1.1 FAIL Head Status"
    client.close()


def hints(kinds, faults):
    """A run of a case for each of these ends, and what it says beside its lines."""
    server = Tested("--timeout=8", *["1.1.1"] * len(kinds))
    for kind in kinds:
        kind(server)
        if kind is passes:
            assert server.line() == "1.1.1 PASS"
    good = kinds.count(passes)
    bad = len(kinds) - good
    server.ends(f"{good} pass, 0 loose, {bad} fail\n", status=1 if bad else 0, faults=faults)


def no_echo_in_three_cases():
    hints([answers_otherwise] * 3, ECHO)


def no_echo_in_nine_cases():
    hints([answers_otherwise] * 9, ECHO)


def two_cases_say_nothing():
    hints([answers_otherwise] * 2, b"")


def one_of_three_that_echoes():
    hints([answers_otherwise, passes, answers_otherwise], b"")


def the_last_of_three_that_echoes():
    hints([answers_otherwise, answers_otherwise, passes], b"")


def the_first_ten_count():
    hints([answers_otherwise] * 10 + [passes], ECHO)


def the_tenth_counts_too():
    hints([answers_otherwise] * 9 + [passes, answers_otherwise], b"")


def it_is_said_once():
    hints([answers_otherwise] * 12, ECHO)


def nobody_is_let_in():
    hints([lets_nobody_in] * 3, STATUS)


def one_is_let_in():
    hints([lets_nobody_in, lets_nobody_in, answers_otherwise], b"")


TESTS = [
    no_echo_in_three_cases,
    no_echo_in_nine_cases,
    two_cases_say_nothing,
    one_of_three_that_echoes,
    the_last_of_three_that_echoes,
    the_first_ten_count,
    the_tenth_counts_too,
    it_is_said_once,
    nobody_is_let_in,
    one_is_let_in,
]
