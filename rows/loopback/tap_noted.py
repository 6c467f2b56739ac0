"""What `wst tap --time` writes before the lines of connections."""

import re
import time

from tap_crowds import Crowd
from tap_lines import ASKED, end_in_turn
from wire import REQUEST

TIMED = re.compile(r"([0-9]+\.[0-9]{3}) (.*)")


def timed(line):
    seconds, rest = TIMED.fullmatch(line).groups()
    return float(seconds), rest


def times():
    """Each line behind the time since its own connection began."""
    tap = Crowd(2, 2, options=("--time",))
    client, server = tap.pair()
    time.sleep(0.5)
    other, other_server = tap.pair()
    other.send(REQUEST)
    assert other_server.get(len(REQUEST)) == REQUEST
    at, line = timed(tap.line())
    assert line == f"2 {ASKED}" and at < 0.4, (at, line)
    client.send(REQUEST)
    assert server.get(len(REQUEST)) == REQUEST
    at, line = timed(tap.line())
    assert line == f"1 {ASKED}" and 0.5 <= at < 2, (at, line)
    end_in_turn(other, other_server)
    at, line = timed(tap.line())
    assert line == "2 end client" and at < 0.5, (at, line)
    end_in_turn(client, server)
    at, line = timed(tap.line())
    assert line == "1 end client" and 0.5 <= at < 2, (at, line)
    tap.ends()


TESTS = [times]
