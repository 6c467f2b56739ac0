"""The verdict on a transcript once more: written from docs/VERDICTS.md and RFC 6455, and not from the program.

A transcript is a list of turns, each the bytes that were sent and that were got in it, and how the connection ended.
`rows/judge/changes` changes one rule at a time, and looks for a row that notices it.
"""

from bisect import bisect_right
from itertools import accumulate, count
from typing import NamedTuple

SERVER, CLIENT = "server", "client"
PEER, TESTER, BROKEN = "peer", "tester", "broken"
CONTINUATION, TEXT, BINARY, CLOSE, PING, PONG = 0, 1, 2, 8, 9, 10
FAULT, REST, DOOMED = "fault", "rest", "doomed"
PROTOCOL_ERROR, NOT_TEXT, TOO_BIG = 1002, 1007, 1009
MOST = 16777216


# ---- frames (sections 5.2 and 5.3)


class Header(NamedTuple):
    fin: bool
    rsv: int
    opcode: int
    is_masked: bool
    form: int  # how many bytes of length follow the first two
    length: int
    key: bytes
    end: int  # the place behind its last byte


def header_at(data, at):
    """The header that begins at this place; None where its last byte is missing."""
    if len(data) < at + 2:
        return None
    first, second = data[at], data[at + 1]
    form = {126: 2, 127: 8}.get(second % 128, 0)
    key = at + 2 + form
    end = key + 4 if second >= 128 else key
    if len(data) < end:
        return None
    length = int.from_bytes(data[at + 2 : key], "big") if form else second % 128
    return Header(first >= 128, first // 16 % 8, first % 16, second >= 128, form, length, data[key:end], end)


def unmasked(payload, key):
    """Byte i is xored with byte i modulo 4 of the key."""
    keys = (key * len(payload))[: len(payload)]
    return (int.from_bytes(payload, "big") ^ int.from_bytes(keys, "big")).to_bytes(len(payload), "big")


# ---- the rules of what comes (sections 5.1 to 5.5, 7.4 and 8.1): the close code of what is broken, or None


def is_control(header):
    return header.opcode in (CLOSE, PING, PONG)


def header_fault(role, header, kind, size):
    """What a header breaks where it comes to this role, while a message of this kind is open of which so much came."""
    if any(
        [
            header.rsv > 0,
            header.opcode not in (CONTINUATION, TEXT, BINARY, CLOSE, PING, PONG),
            header.is_masked != (role == SERVER),
            header.length < {0: 0, 2: 126, 8: 65536}[header.form],
            header.length >= 2**63,
            is_control(header) and not header.fin,
            is_control(header) and header.length > 125,
            header.opcode == CONTINUATION and kind is None,
            header.opcode in (TEXT, BINARY) and kind is not None,
        ]
    ):
        return PROTOCOL_ERROR
    if not is_control(header) and size + header.length > MOST:
        return TOO_BIG
    return None


def bad_byte(text):
    """The first byte after which nothing completes the text; its length where it ends inside a character; else None."""
    try:
        text.decode()
    except UnicodeDecodeError as error:
        return {"invalid start byte": error.start, "invalid continuation byte": error.end}.get(error.reason, len(text))
    return None


def is_code(code):
    return 1000 <= code <= 1003 or 1007 <= code <= 1014 or 3000 <= code <= 4999


def close_code(payload):
    """The code in it, 0 where it has none."""
    return int.from_bytes(payload[:2], "big")


def close_fault(payload):
    """What the payload of a close frame breaks: it is empty, or a code in two bytes and a reason."""
    if len(payload) == 1:
        return PROTOCOL_ERROR
    if len(payload) >= 2 and not is_code(close_code(payload)):
        return PROTOCOL_ERROR
    if bad_byte(payload[2:]) is not None:
        return NOT_TEXT
    return None


# ---- frames of which the last bytes are missing

CODES = [code.to_bytes(2, "big") for code in range(5000) if is_code(code)]


def least_lengths(form, known):
    """The bytes of the least length that the form may have where it begins so; else these, behind which zeros stand."""
    least = {0: 0, 2: 126, 8: 65536}[form].to_bytes(form, "big")
    return least if least.startswith(known) else known


def whole_headers(role, data, lengths):
    """The bytes with a whole header: of these lengths where the length is open, else of the least; its key is of zeros."""
    if len(data) == 1:
        starts = [data + bytes([length + 128 if role == SERVER else length]) for length in lengths]
    else:
        form = {126: 2, 127: 8}.get(data[1] % 128, 0)
        starts = [data[:2] + least_lengths(form, data[2 : 2 + form]) + data[2 + form :]]
    return [next(x for x in (start + bytes(zeros) for zeros in count()) if header_at(x, 0)) for start in starts]


def wants(text):
    """How many bytes are missing of the character inside which the text ends: its first byte tells how many it has."""
    last = text[len(text.decode(errors="ignore").encode()) :]
    return 2 + (last[0] >= 0xE0) + (last[0] >= 0xF0) - len(last) if last else 0


def can_be_text(text, missing):
    """So many more bytes can make a text of these."""
    return bad_byte(text) in (None, len(text)) and wants(text) <= missing


def can_be_close(payload, missing):
    """So many more bytes can make a close payload of these."""
    if len(payload) + missing == 1:
        return False
    return any(code.startswith(payload[:2]) for code in CODES) and can_be_text(payload[2:], missing)


def is_doomed(role, data, kind, message):
    """No right frame begins with these bytes, behind what is open of a message of this kind. None of them is a fault."""
    for begun in whole_headers(role, data, [0, wants(message) * (kind == TEXT)]):
        header = header_at(begun, 0)
        payload = unmasked(begun[header.end :], header.key)
        missing = header.length - len(payload)
        ends_text = header.fin and (kind if header.opcode == CONTINUATION else header.opcode) == TEXT
        if header_fault(role, header, kind, len(message)):
            continue
        if ends_text and not can_be_text(message + payload, missing):
            continue
        if header.opcode == CLOSE and not can_be_close(payload, missing):
            continue
        return False
    return True


# ---- what is told of a stream (sections 5.4 to 5.6, 7.1.7)


class Event(NamedTuple):
    kind: object  # of a message, PING, PONG; CLOSE and FAULT, behind which nothing is told; REST where bytes follow
    value: object  # the payload, or the close code; of a REST whether it is doomed
    place: int  # that of its last byte, of the fault, or of the first byte that follows


def walk(role, data):
    """The events of what comes to an endpoint of this role."""
    at, kind, message = 0, None, b""
    while header := header_at(data, at):
        opened = kind
        fault = header_fault(role, header, kind, len(message))
        if fault:
            yield Event(FAULT, fault, header.end - 1)
            return
        end = header.end + header.length
        payload = unmasked(data[header.end : end], header.key)
        if not is_control(header):
            kind = kind if header.opcode == CONTINUATION else header.opcode
            text = message + payload if kind == TEXT else b""
            bad = bad_byte(text)
            if bad is not None and bad < len(text):
                yield Event(FAULT, NOT_TEXT, header.end + bad - len(message))
                return
        if end > len(data):
            kind = opened
            break
        at = end
        if header.opcode == CLOSE:
            fault = close_fault(payload)
            yield Event(FAULT, fault, end - 1) if fault else Event(CLOSE, close_code(payload), end - 1)
            if at < len(data):
                yield Event(REST, False, at)
            return
        if is_control(header):
            yield Event(header.opcode, payload, end - 1)
            continue
        message += payload
        if header.fin:
            if bad is not None:
                yield Event(FAULT, NOT_TEXT, end - 1)
                return
            yield Event(kind, message, end - 1)
            kind, message = None, b""
    if at < len(data):
        yield Event(REST, is_doomed(role, data[at:], kind, message), at)


# ---- what a transcript shows


class InTurn(NamedTuple):
    kind: object
    value: object
    turn: int


class Evidence(NamedTuple):
    tested: str
    due: list
    got: list
    turns: int
    end: str
    answers_doom: bool  # when the turn of the close that was got was over, what was sent was doomed


def in_turns(role, pieces):
    """The events of the joined pieces, each with the turn that holds the byte at its place."""
    ends = list(accumulate(map(len, pieces)))
    return [InTurn(x.kind, x.value, bisect_right(ends, x.place)) for x in walk(role, b"".join(pieces))]


def is_doomed_after(role, pieces):
    """What was sent in these turns is doomed."""
    return any(x.kind == REST and x.value for x in walk(role, b"".join(pieces)))


def counts_doom(tested, got, end):
    """What is doomed counts as a fault: the tester didn't end the connection, or it did behind a client's close."""
    return end != TESTER or (tested == CLIENT and close_of(got) is not None)


def evidence_of(tested, turns, end):
    """Each message is due again, a pong for a ping, and nothing for a pong."""
    pieces = [sent for sent, _ in turns]
    sent = in_turns(tested, pieces)
    due = [x._replace(kind=PONG) if x.kind == PING else x for x in sent if x.kind != PONG]
    got = in_turns(CLIENT if tested == SERVER else SERVER, [got for _, got in turns])
    if is_doomed_after(tested, pieces) and counts_doom(tested, got, end):
        due.append(InTurn(DOOMED, None, max(turn for turn, piece in enumerate(pieces) if piece)))
    close = close_of(got)
    answers_doom = close and fault_of(due) and is_doomed_after(tested, pieces[: close.turn + 1])
    return Evidence(tested, due, got, len(turns), end, answers_doom)


def messages(events):
    return [x for x in events if x.kind in (TEXT, BINARY)]


def pongs(events):
    return [x for x in events if x.kind == PONG]


def replies(events):
    return [x for x in events if x.kind in (TEXT, BINARY, PONG)]


def bare(events):
    """Without their turns."""
    return [(x.kind, x.value) for x in events]


def first(kinds, events):
    return next((x for x in events if x.kind in kinds), None)


def close_of(events):
    return first([CLOSE], events)


def fault_of(events):
    return first([FAULT, DOOMED], events)


def ending_of(events):
    return first([CLOSE, FAULT, DOOMED], events)


def matches(x):
    """Each pong that was got with the first due one of its payload after the last matched, or with None."""
    pairs, due, at = [], pongs(x.due), 0
    for got in pongs(x.got):
        found = next((place for place in range(at, len(due)) if due[place].value == got.value), None)
        pairs.append((got, None if found is None else due[found]))
        at = at if found is None else found + 1
    return pairs


def has_last_pong(x):
    """The last pong that was got has the payload of the last due one, and stands in no earlier turn than its ping."""
    last = zip(pongs(x.got)[-1:], pongs(x.due)[-1:])
    return any(got.value == due.value and got.turn >= due.turn for got, due in last)


def is_with_some_left_out(some, every):
    """The first list is the second with some left out."""
    rest = iter(every)
    return all(x in rest for x in some)


# ---- the Fails


def is_not_frames(x):
    return any(
        [
            fault_of(x.got),
            close_of(x.got) and first([REST], x.got),
            first([REST], x.got) and x.end != BROKEN,
        ]
    )


def is_early(x):
    close, ending = close_of(x.got), ending_of(x.due)
    return any(
        [
            any(got.turn < due.turn for got, due in zip(messages(x.got), messages(x.due))),
            any(due is not None and got.turn < due.turn for got, due in matches(x)),
            close and ending and close.turn < ending.turn and not x.answers_doom,
        ]
    )


def has_other_messages(x):
    due, got = bare(messages(x.due)), bare(messages(x.got))
    return got != (due[: len(got)] if fault_of(x.due) else due)


def has_other_pongs(x):
    return any(
        [
            any(due is None for _, due in matches(x)),
            not fault_of(x.due) and pongs(x.due) and not has_last_pong(x),
        ]
    )


def has_other_close(x):
    return any(
        [
            close_of(x.due) and not close_of(x.got),
            not ending_of(x.due) and close_of(x.got),
        ]
    )


def has_other_end(x):
    if ending_of(x.due):
        return x.end == TESTER and (x.tested == SERVER or not close_of(x.got))
    return x.end != TESTER


# ---- the Looses


def is_short(kind_of, x):
    return len(kind_of(x.got)) < len(kind_of(x.due))


def skips_pongs(x):
    return is_short(pongs, x) and has_last_pong(x)


def has_pong_elsewhere(x):
    return not is_with_some_left_out(bare(replies(x.got)), bare(replies(x.due)))


def has_other_code(x):
    close, ending = close_of(x.got), ending_of(x.due)
    return close and ending and ending.kind != DOOMED and close.value != ending.value


def ends_late(x):
    close, ending = close_of(x.got), ending_of(x.due)
    return ending and ending.turn + 1 < x.turns and (x.tested == SERVER or not close or close.turn != ending.turn)


def echoes_short(x):
    return fault_of(x.due) and (is_short(messages, x) or (is_short(pongs, x) and not has_last_pong(x)))


def is_broken(x):
    return x.end == BROKEN


# ---- the verdict

FAILS = [
    ("NotFrames", is_not_frames),
    ("Early", is_early),
    ("Messages", has_other_messages),
    ("Pongs", has_other_pongs),
    ("Close", has_other_close),
    ("End", has_other_end),
]

LOOSES = [
    ("PongsSkipped", skips_pongs),
    ("PongElsewhere", has_pong_elsewhere),
    ("OtherCode", has_other_code),
    ("LateEnd", ends_late),
    ("EchoShort", echoes_short),
    ("BrokenEnd", is_broken),
]


def verdict(turns, end, tested=SERVER):
    """The first Fail that applies, else the first Loose, else PASS."""
    x = evidence_of(tested, turns, end)
    for word, rules in (("FAIL", FAILS), ("LOOSE", LOOSES)):
        for why, applies in rules:
            if applies(x):
                return f"{word} {why}"
    return "PASS"
