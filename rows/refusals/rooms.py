"""What a session asks of the allocator, counted from outside: `test_refusals` parts it by requests of one size."""

import os
import struct
import subprocess

from shim import build_shim

MARK = 7_340_033
# The bytes of each frame that is put: its payload, a header and a key.
PUT = [size + head + 4 for size, head in ((0, 2), (1, 2), (125, 2), (126, 4), (65_535, 4), (65_536, 10))]
LONG = 50_000
# The bytes of a large message that is lent, and the most that ten small ones after it ask for.
LARGE, SMALL = 200_000, 1_000


def log_of(folder, words):
    """Each call of a run: the place given back, the place handed out and the size."""
    count = build_shim(folder, "count")
    with open(os.path.join(folder, "log"), "w+b") as log:
        env = {"PATH": os.environ["PATH"], "LD_PRELOAD": count, "COUNT_LOG": str(log.fileno())}
        subprocess.run(words, stdout=subprocess.DEVNULL, env=env, pass_fds=[log.fileno()], check=True)
        log.seek(0)
        return list(struct.iter_unpack("3Q", log.read()))


def parts_of(log):
    """What was asked for between two marks, and the bytes that are held at the second, for each part."""
    parts, asked, held, marks = [], 0, {}, set()
    for old, given, size in log:
        if old:
            held.pop(old, 0)
        if given and size == MARK:
            parts.append((asked, sum(held.values())))
            asked = 0
        elif given:
            asked += size
            held[given] = size
    return parts


def failures_of_rooms(folder, words):
    """A text for each part that is not right."""
    parts = parts_of(log_of(folder, words))
    puts = parts[3 : 3 + 2 * len(PUT) : 2]
    (_, before), (_, opened), (_, after), (later, last), (_, idle), (_, large), (asked, small), (_, forgotten) = parts[-11:-3]
    (_, fresh), (_, empty), (_, two) = parts[-3:]
    failures = []
    if len(parts) != 2 + 2 * len(PUT) + 11:
        failures.append(f"{len(parts)} parts")
    if parts[1][0] != 0:
        failures.append(f"a new session asks for {parts[1][0]}")
    failures += [f"for {put} bytes a put asks for {asked}" for put, (asked, _) in zip(PUT, puts) if asked > 2 * max(put, 8)]
    if not LONG <= opened - before <= 2 * LONG:
        failures.append(f"an open message of {LONG} bytes holds {opened - before}")
    if after != before or last != before:
        failures.append(f"a session that is over holds {after - before}, {last - before}")
    if later != 0:
        failures.append(f"a session that is over asks for {later}")
    if not LARGE <= large - idle <= 2 * LARGE:
        failures.append(f"a message of {LARGE} bytes that is lent holds {large - idle}")
    if asked > SMALL or small - idle > SMALL:
        failures.append(f"after it ten small ones ask for {asked} and hold {small - idle}")
    if forgotten != idle:
        failures.append(f"a room that was given back holds {forgotten - idle}")
    if empty != fresh or two != fresh:
        failures.append(f"between two messages in fragments a session holds {empty - fresh}, {two - fresh}")
    return failures
