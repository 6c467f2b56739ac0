"""The verdict by RFC 6455 alone once more, on an end that needn't echo: written from docs/VERDICTS.md and the standard,
and not from the program. Events, pongs and doom are those of the echo's twin."""

from bisect import bisect_right
from itertools import accumulate
from typing import NamedTuple

from twin import BINARY, BROKEN, CLIENT, CLOSE, CONTINUATION, DOOMED, FAULT, NOT_TEXT, PEER, PING, PONG, SERVER, TESTER
from twin import TEXT, TOO_BIG, InTurn, bad_byte, close_code, close_fault, close_of, counts_doom, ending_of, fault_of
from twin import first, header_at, in_turns, is_control, is_doomed, is_doomed_after, pongs, unmasked, walk

# ---- frames in any form, one after the other


class WireFrame(NamedTuple):
    header: object
    payload: bytes  # without its mask
    start: int
    end: int


def frames_from(data, at):
    """The whole frames from this place on, and the place behind the last of them."""
    frames = []
    while (header := header_at(data, at)) and header.end + header.length <= len(data):
        end = header.end + header.length
        frames.append(WireFrame(header, unmasked(data[header.end : end], header.key), at, end))
        at = end
    return frames, at


def last_event(role, data):
    """What ends the events of this role, a close or a fault, if there is one."""
    return first([CLOSE, FAULT], walk(role, data))


def frames_before(role, data):
    """The whole frames before the close or the fault, and the place behind the last of them."""
    ended = last_event(role, data)
    frames, at = frames_from(data, 0)
    if ended is None:
        return frames, at
    before = [x for x in frames if x.end <= ended.place]
    return before, before[-1].end if before else 0


def is_data(frame):
    return not is_control(frame.header)


# ---- a close whose code the standard leaves undefined (sections 7.4.1 and 7.4.2)


def is_undefined(code):
    return code == 1004 or 1016 <= code <= 2999 or code >= 5000


def has_undefined_code(payload):
    return is_undefined(close_code(payload)) and bad_byte(payload[2:]) is None


def undefined_code(role, data):
    """The code of the close frame in which the fault is that ends what came, where it is one of these; else None."""
    ended = last_event(role, data)
    if ended is None or ended.kind != FAULT:
        return None
    at = frames_before(role, data)[1]
    frame = first_frame(data, at)
    if frame is None or frame.header.opcode != CLOSE or frame.end - 1 != ended.place:
        return None
    return close_code(frame.payload) if has_undefined_code(frame.payload) else None


def first_frame(data, at):
    return next(iter(frames_from(data, at)[0]), None)


# ---- what stands behind a close (section 5.5.1)


def is_right_control(role, frame):
    """A ping, a pong or a close that breaks no rule where it comes to this role."""
    header = frame.header
    if header.opcode not in (CLOSE, PING, PONG) or not header.fin or header.rsv > 0:
        return False
    if header.is_masked != (role == SERVER) or header.form > 0:
        return False
    if header.opcode != CLOSE:
        return True
    return close_fault(frame.payload) is None or has_undefined_code(frame.payload)


def is_cut_control(role, rest):
    """Less than a header and its payload, of a close, a ping or a pong that isn't doomed; or nothing."""
    return rest == b"" or (rest[:1] in (b"\x88", b"\x89", b"\x8a") and not is_doomed(role, rest, None, b""))


def are_controls(role, data):
    """Right pings, pongs and closes alone, the last perhaps cut."""
    frames, at = frames_from(data, 0)
    return all(is_right_control(role, x) for x in frames) and is_cut_control(role, data[at:])


def pongs_behind(role, data, ends):
    """The right pongs behind the close, each in the turn that holds its last byte; the turns end at these places."""
    frames = frames_from(data, behind_close(role, data))[0]
    right = [x for x in frames if x.header.opcode == PONG and is_right_control(role, x)]
    return [InTurn(PONG, x.payload, bisect_right(ends, x.end - 1)) for x in right]


def behind_close(role, data):
    """The place behind the frame of the close."""
    return first_frame(data, frames_before(role, data)[1]).end


# ---- the fault that was sent


def frames_at_fault(role, data):
    """The whole frames from the first byte of the one at fault on."""
    return frames_from(data, frames_before(role, data)[1])[0]


def is_late(role, data):
    """The frame at fault wasn't sent whole, or of a text the last fragment before another message; and no close was."""
    ended = last_event(role, data)
    if ended is None or ended.kind != FAULT:
        return False
    frames = frames_at_fault(role, data)
    if not frames:
        return True
    if ended.value != NOT_TEXT or any(x.header.opcode == CLOSE for x in frames[1:]):
        return False
    return not ends_message(frames)


def ends_message(frames):
    """The first of these frames, or one that goes on with it, is the last of its message before another one begins."""
    for at, frame in enumerate(frames):
        if at > 0 and frame.header.opcode in (TEXT, BINARY):
            return False
        if frame.header.fin and (at == 0 or frame.header.opcode == CONTINUATION):
            return True
    return False


def is_ordered(role, header):
    """The standard orders an end that takes such a header to fail (sections 5.1 and 5.2)."""
    is_reserved = header.opcode not in (CONTINUATION, TEXT, BINARY, CLOSE, PING, PONG)
    return header.rsv > 0 or is_reserved or header.is_masked != (role == SERVER)


def is_tolerable(role, data):
    """It doesn't order the end to fail for this fault: one of the header, and none of these."""
    ended = last_event(role, data)
    if ended is None or ended.kind != FAULT or ended.value == NOT_TEXT:
        return False
    header = header_at(data, frames_before(role, data)[1])
    return ended.place < header.end and not is_ordered(role, header)


# ---- what a transcript shows


class Evidence(NamedTuple):
    tested: str
    due: list  # what was sent, with the pings
    got: list
    answers: list  # the pongs, also the right ones behind the close that was got
    behind: bytes  # what stands behind the close that was got, or else behind the last whole frame
    turns: int
    end: str
    answers_doom: bool
    sends_data: bool
    is_late: bool
    is_tolerable: bool
    is_open: bool  # a message that was got
    ends_in_data: bool  # what was got ends inside a data frame


def evidence_of(tested, turns, end):
    tester = CLIENT if tested == SERVER else SERVER
    pieces, answers = [sent for sent, _ in turns], [got for _, got in turns]
    sent, came = b"".join(pieces), b"".join(answers)
    due, got = in_turns(tested, pieces), with_close(in_turns(tester, answers), undefined_code(tester, came))
    if is_doomed_after(tested, pieces) and counts_doom(tested, got, end):
        due.append(InTurn(DOOMED, None, max(turn for turn, piece in enumerate(pieces) if piece)))
    close = close_of(got)
    answers_doom = bool(close and fault_of(due) and is_doomed_after(tested, pieces[: close.turn + 1]))
    frames, at = frames_before(tester, came)
    data = [x for x in frames if is_data(x)]
    behind = came[at:] if close is None else came[behind_close(tester, came) :]
    under_way = behind[0] % 16 if behind and not ending_of(got) else None
    later = pongs_behind(tester, came, list(accumulate(map(len, answers)))) if close else []
    return Evidence(
        tested=tested,
        due=due,
        got=got,
        answers=[*pongs(got), *later],
        behind=behind,
        turns=len(turns),
        end=end,
        answers_doom=answers_doom,
        sends_data=any(map(is_data, frames_before(tested, sent)[0])),
        is_late=is_late(tested, sent),
        is_tolerable=is_tolerable(tested, sent),
        is_open=bool(data and not data[-1].header.fin) or under_way in (TEXT, BINARY),
        ends_in_data=under_way is not None and under_way < 8,
    )


def with_close(got, code):
    """A close of this code, if there is one, in place of the fault."""
    return got if code is None else [InTurn(CLOSE, code, x.turn) if x.kind == FAULT else x for x in got]


# ---- words


def has_own_close(x):
    """A close came in an earlier turn than the close or fault that was sent, or neither was sent."""
    close, ending = close_of(x.got), ending_of(x.due)
    return bool(close and (ending is None or (close.turn < ending.turn and not x.answers_doom)))


def is_too_big(x):
    fault = fault_of(x.got)
    return bool(fault and fault.value == TOO_BIG)


def pings(x):
    return [y for y in x.due if y.kind == PING]


def owed(x):
    """The pings in an earlier turn than the close or fault that was sent, and than the close that was got."""
    ends = [y.turn for y in (ending_of(x.due), close_of(x.got)) if y]
    return [y for y in pings(x) if y.turn < min(ends, default=x.turns)]


def is_answered(ping, x):
    """A pong with its payload came in no earlier turn, be it behind the close."""
    return any(pong.value == ping.value and pong.turn >= ping.turn for pong in x.answers)


def lacks_last_pong(x):
    """Pongs are owed, and neither the last owed ping nor a later one is answered."""
    from_last = pings(x)[len(owed(x)) - 1 :]
    return bool(owed(x)) and not any(is_answered(ping, x) for ping in from_last)


def must_end(x):
    """A close was sent, or a fault in time for which the standard orders an end to fail."""
    return bool(close_of(x.due) or (fault_of(x.due) and not x.is_late and not x.is_tolerable))


# ---- the Fails


def is_not_frames(x):
    if fault_of(x.got):
        return not is_too_big(x)
    if close_of(x.got):
        return not are_controls(CLIENT if x.tested == SERVER else SERVER, x.behind)
    return bool(x.behind) and x.end == PEER and not fault_of(x.due)


def leaves_ping(x):
    close = close_of(x.got)
    if not lacks_last_pong(x) or fault_of(x.due) or is_too_big(x):
        return False
    if close:
        sent = close_of(x.due)
        return bool(sent and close.value == sent.value and not has_own_close(x))
    return x.end == TESTER and not x.ends_in_data


def leaves_close(x):
    if not close_of(x.due) or close_of(x.got) or is_too_big(x) or x.is_open:
        return False
    return x.end == TESTER or (x.end == PEER and not x.sends_data)


def stays_open(x):
    if not must_end(x) or x.end != TESTER or is_too_big(x):
        return False
    if not close_of(x.got) and (x.ends_in_data or (close_of(x.due) and x.is_open)):
        return False
    if x.tested == CLIENT:
        return not close_of(x.got)
    return bool(not has_own_close(x) or close_of(x.due))


# ---- the Looses


def skips_pongs(x):
    return lacks_last_pong(x) or not all(is_answered(ping, x) for ping in owed(x)[:-1])


def has_other_code(x):
    close, ending = close_of(x.got), ending_of(x.due)
    if not close or has_own_close(x) or ending.kind == DOOMED:
        return False
    return close.value != ending.value


def ends_late(x):
    close, ending = close_of(x.got), ending_of(x.due)
    if not must_end(x) or has_own_close(x) or ending.turn + 1 >= x.turns:
        return False
    return x.tested == SERVER or close is None or close.turn != ending.turn


def is_broken(x):
    return x.end == BROKEN


def has_own_fault(x):
    return has_own_close(x) and close_of(x.got).value in (1002, 1007) and not fault_of(x.due)


def has_own_end(x):
    return not ending_of(x.due) and not close_of(x.got) and x.end == PEER


def has_late_fault(x):
    return x.is_late and not close_of(x.got) and x.end == TESTER


def is_tolerated(x):
    return x.is_tolerable and x.end == TESTER and (x.tested == SERVER or not close_of(x.got))


def has_no_close(x):
    return bool(must_end(x) and not close_of(x.got) and (close_of(x.due) or x.end == TESTER))


def goes_on_behind(x):
    return bool(close_of(x.got) and x.behind)


# ---- the verdict

FAILS = [
    ("NotFrames", is_not_frames),
    ("Pongs", leaves_ping),
    ("Close", leaves_close),
    ("End", stays_open),
]

LOOSES = [
    ("PongsSkipped", skips_pongs),
    ("OtherCode", has_other_code),
    ("LateEnd", ends_late),
    ("BrokenEnd", is_broken),
    ("OwnFault", has_own_fault),
    ("OwnClose", has_own_close),
    ("OwnEnd", has_own_end),
    ("LateFault", has_late_fault),
    ("Tolerated", is_tolerated),
    ("NoClose", has_no_close),
    ("BehindClose", goes_on_behind),
    ("TooBig", is_too_big),
]


def verdict(turns, end, tested=SERVER):
    """The first Fail that applies, else the first Loose, else PASS."""
    x = evidence_of(tested, turns, end)
    for word, rules in (("FAIL", FAILS), ("LOOSE", LOOSES)):
        for why, applies in rules:
            if applies(x):
                return f"{word} {why}"
    return "PASS"
