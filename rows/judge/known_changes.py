"""Changes of the twin that are written by hand, and those that change no verdict, each with the reason."""

from twin import FAILS, LOOSES

HEADER_RULES = [
    "header.rsv > 0",
    "header.opcode not in (CONTINUATION, TEXT, BINARY, CLOSE, PING, PONG)",
    "header.length < {0: 0, 2: 126, 8: 65536}[header.form]",
    "header.length >= 2**63",
    "is_control(header) and not header.fin",
    "is_control(header) and header.length > 125",
    "header.opcode == CONTINUATION and kind is None",
    "header.opcode in (TEXT, BINARY) and kind is not None",
]

# What is told, and the rule of it, in their order.
RULES = [(why, rule.__name__) for why, rule in FAILS + LOOSES]

# The text that is replaced, which stands once in the twin, and what stands there instead, one at a time.
BY_HAND = {
    **{f"{rule},": [f"role == {role} and {rule}," for role in ("SERVER", "CLIENT")] for rule in HEADER_RULES},
    # a rule is not told where one behind it applies too
    **{
        f'("{why}", {rule})': [f'("{why}", lambda x: {rule}(x) and not {other}(x))' for _, other in RULES[at + 1 :]]
        for at, (why, rule) in enumerate(RULES)
    },
    "header.is_masked != (role == SERVER)": [
        "role == SERVER and not header.is_masked",
        "role == CLIENT and header.is_masked",
    ],
    "if not is_control(header) and size": [
        "if role == SERVER and not is_control(header) and size",
        "if role == CLIENT and not is_control(header) and size",
    ],
    "        return TOO_BIG": [
        "        return TOO_BIG if kind is None else PROTOCOL_ERROR",
    ],
    "if kind == TEXT else": [
        "if kind == TEXT and role == SERVER else",
        "if kind == TEXT and role == CLIENT else",
        "if header.opcode == TEXT else",
    ],
    "fault = close_fault(payload)": [
        "fault = close_fault(payload) if role == SERVER else None",
        "fault = close_fault(payload) if role == CLIENT else None",
    ],
    '"invalid start byte": error.start': [
        '"invalid start byte": error.end',
    ],
    '"invalid continuation byte": error.end': [
        '"invalid continuation byte": error.start',
    ],
    "yield Event(FAULT, fault, header.end - 1)": [
        "yield Event(FAULT, fault, at)",
        "yield Event(FAULT, fault, header.end + header.length - 1)",
    ],
    "header.end + bad - len(message))": [
        "header.end - 1)",
        "min(end, len(data)) - 1)",
        "end - 1)",
    ],
    "yield Event(FAULT, NOT_TEXT, end - 1)": [
        "yield Event(FAULT, NOT_TEXT, header.end - 1)",
    ],
    "yield Event(FAULT, fault, end - 1)": [
        "yield Event(FAULT, fault, header.end - 1)",
    ],
    "Event(CLOSE, close_code(payload), end - 1)": [
        "Event(CLOSE, close_code(payload), header.end - 1)",
    ],
    "yield Event(header.opcode, payload, end - 1)": [
        "yield Event(header.opcode, payload, header.end - 1)",
    ],
    "yield Event(kind, message, end - 1)": [
        "yield Event(kind, message, header.end - 1)",
    ],
    "bisect_right(ends, x.place)": [
        "bisect_right(ends, x.place + 1)",
        "bisect_right(ends, x.place - 1)",
        "bisect_right(ends, x.place) + (role == SERVER)",
        "bisect_right(ends, x.place) + (role == CLIENT)",
    ],
    "data[header.end : end], header.key)": [
        "data[header.end : end], header.key[::-1])",
        "data[header.end : end], b'' if is_control(header) else header.key)",
        "data[header.end : end], (header.key * 2)[len(message) % 4 :][:4])",
    ],
    "len(turns), end, answers_doom)": [
        "sum(bool(sent) for sent, _ in turns), end, answers_doom)",
        "sum(bool(got) for _, got in turns), end, answers_doom)",
        "sum(bool(sent or got) for sent, got in turns), end, answers_doom)",
    ],
    "x._replace(kind=PONG) if x.kind == PING else x": [
        "x",
    ],
    "for x in sent if x.kind != PONG]": [
        "for x in sent]",
    ],
    "return [(x.kind, x.value) for x in events]": [
        "return [x.kind for x in events]",
        "return [x.value for x in events]",
    ],
    "return next((x for x in events if x.kind in kinds)": [
        "return next((x for x in events[-1:] if x.kind in kinds)",
    ],
    "range(at, len(due))": [
        "range(len(due))",
        "reversed(range(at, len(due)))",
        "range(at, min(at + 1, len(due)))",
    ],
    "at = at if found is None else found + 1": [
        "at = len(due) if found is None else found + 1",
        "at = at + 1",
        "at = at if found is None else at + 1",
        "at = at if found is None else found",
    ],
    "if due[place].value == got.value": [
        "if due[place].value == got.value and due[place].turn <= got.turn",
        "if due[place].value[:1] == got.value[:1]",
        "if len(due[place].value) == len(got.value)",
    ],
    "zip(pongs(x.got)[-1:], pongs(x.due)[-1:])": [
        "zip(pongs(x.got), pongs(x.due))",
        "[(got, due) for got in pongs(x.got) for due in pongs(x.due)[-1:]]",
        "[(got, due) for got in pongs(x.got)[-1:] for due in pongs(x.due)]",
        "matches(x)[-1:] and [p for p in matches(x)[-1:] if p[1] == pongs(x.due)[-1]]",
    ],
    "    return all(x in rest for x in some)": [
        "    return all(x in every for x in some)",
        "    return some == every",
        "    return some == every[: len(some)]",
        "    return len(some) <= len(every)",
    ],
    "bare(replies(x.got)), bare(replies(x.due))": [
        "bare(replies(x.due)), bare(replies(x.got))",
    ],
    "zip(messages(x.got), messages(x.due))": [
        "zip(messages(x.got)[:1], messages(x.due))",
        "list(zip(messages(x.got), messages(x.due)))[-1:]",
        "[pair for pair in zip(messages(x.got), messages(x.due)) if pair[0][:2] == pair[1][:2]]",
    ],
    "for got, due in matches(x))": [
        "for got, due in matches(x)[:1])",
        "for got, due in matches(x)[-1:])",
        "for got, due in zip(pongs(x.got), pongs(x.due)))",
    ],
    "return got != (due[: len(got)] if": [
        "return got != (due[len(due) - len(got) :] if",
    ],
    "return got != (due[: len(got)] if fault_of(x.due) else due)": [
        "return got != due[: len(got)]",
        "return got != due",
        "return len(got) > len(due)",
        "return got != (due[: len(got)] if ending_of(x.due) else due)",
        "return not is_with_some_left_out(got, due) if fault_of(x.due) else got != due",
        "return sorted(got, key=str) != sorted(due[: len(got)] if fault_of(x.due) else due, key=str)",
    ],
    "any(due is None for _, due in matches(x))": [
        "not fault_of(x.due) and any(due is None for _, due in matches(x))",
        "any(due is None for _, due in matches(x)[-1:])",
        "any(due is None for _, due in matches(x)[:1])",
        "len(pongs(x.got)) > len(pongs(x.due))",
    ],
    "and pongs(x.due) and not has_last_pong(x)": [
        "and is_short(pongs, x)",
        "and pongs(x.due) and not pongs(x.got)",
        "and close_of(x.due) and pongs(x.due) and not has_last_pong(x)",
    ],
    "close_of(x.due) and not close_of(x.got)": [
        "close_of(x.due) and not close_of(x.got) and x.end == PEER",
        "close_of(x.due) and not close_of(x.got) and x.end != BROKEN",
    ],
    "not ending_of(x.due) and close_of(x.got)": [
        "not ending_of(x.due) and close_of(x.got) and x.end == PEER",
        "not ending_of(x.due) and close_of(x.got) and x.end == TESTER",
    ],
    "fault_of(x.got),\n": [
        "fault_of(x.got) and x.end != BROKEN,\n",
    ],
    "close_of(x.got) and first([REST], x.got),": [
        "close_of(x.got) and first([REST], x.got) and x.end != BROKEN,",
    ],
    "close.value != ending.value": [
        "close.value % 256 != ending.value % 256",
        "close.value // 256 != ending.value // 256",
        "close.value and close.value != ending.value",
        "ending.value and close.value != ending.value",
        "ending.kind == CLOSE and close.value != ending.value",
        "ending.kind == FAULT and close.value != ending.value",
    ],
    "return ending and ending.turn + 1 < x.turns": [
        "return ending and ending.kind == CLOSE and ending.turn + 1 < x.turns",
        "return ending and ending.kind == FAULT and ending.turn + 1 < x.turns",
        "return close_of(x.got) and close_of(x.got).turn + 1 < x.turns",
        "return ending and ending.turn + 1 < x.turns and not close_of(x.got)",
        "return ending and ending.turn + 1 < x.turns and x.end == PEER",
    ],
    "return is_short(pongs, x) and has_last_pong(x)": [
        "return is_short(pongs, x) and has_last_pong(x) and not fault_of(x.due)",
        "return is_short(pongs, x) and has_last_pong(x) and close_of(x.due)",
    ],
    "(is_short(messages, x) or (": [
        "(is_short(messages, x) and pongs(x.due) == [] or (",
        "(is_short(messages, x) and is_short(pongs, x) or (",
    ],
    "return x.end == BROKEN": [
        "return x.end == BROKEN and close_of(x.due)",
        "return x.end == BROKEN and fault_of(x.due)",
    ],
    "due is not None and got.turn < due.turn for": [
        "due is None or got.turn < due.turn for",
    ],
    "close and ending and close.turn < ending.turn and not x.answers_doom": [
        "close and (not ending or close.turn < ending.turn) and not x.answers_doom",
        "close and ending and ending.kind == CLOSE and close.turn < ending.turn",
        "close and ending and ending.kind != DOOMED and close.turn < ending.turn and not x.answers_doom",
    ],
    "close and ending and ending.kind != DOOMED and close.value != ending.value": [
        "ending and ending.kind != DOOMED and (not close or close.value != ending.value)",
    ],
    "return [x for x in events if x.kind == PONG]": [
        "return [x for x in events if x.kind in (PING, PONG)]",
    ],
    "if x.kind in (TEXT, BINARY, PONG)]": [
        "if x.kind in (TEXT, BINARY, PING, PONG)]",
    ],
}

GOT_FAULT = "a fault that was got is told before as NotFrames"
SHORT = "without a fault each of the two is a Fail, which is told before"
REPLIES = "more of either than are due is a Fail, and fewer pongs with the last one are PongsSkipped: told before"

# The changes that change no verdict, by their names, and why.
EQUAL = {
    "header_at: 128 -> 127 (4)": "a first byte of 127 has reserved bits, and is a fault whatever its FIN is",
    "header_fault: 0 -> -1 (3)": "no length is below 0",
    "by hand: header.length >= 2**63, -> role == SERVER and header.length >= 2**63,": (
        "what was got with such a length is at fault too as larger than a message may be, and its code is not asked"
    ),
    'by hand: ("Close", has_other_close) -> ("Close", lambda x: has_other_close(x) and not has_other_code(x))': (
        "Close is told where one of the two closes is missing, and OtherCode where both are there"
    ),
    'by hand: ("Close", has_other_close) -> ("Close", lambda x: has_other_close(x) and not echoes_short(x))': (
        "Close is not told of a fault, and EchoShort of nothing else"
    ),
    "close_fault: 2 -> 1": "a payload of one byte is told before",
    "is_not_frames: close_of -> ending_of": GOT_FAULT,
    "is_early: close_of -> ending_of": GOT_FAULT,
    "has_other_close: close_of -> ending_of (2)": GOT_FAULT,
    "has_other_close: close_of -> ending_of (3)": GOT_FAULT,
    "has_other_code: close_of -> ending_of": GOT_FAULT,
    "top: 5000 -> 5001": "5000 is no code that is allowed",
    "whole_headers: len(data) == 1 -> len(data) <= 1": "what stands behind whole frames has a byte",
    "wants: 0 -> -1 (3)": "a whole text wants no byte, and of the open lengths 0 is tried too",
    "counts_doom: close_of -> ending_of": GOT_FAULT,
    "evidence_of: close and fault_of(due) and is_doomed_after(tested, pieces[: close.turn + 1])"
    " -> ((close) and (is_doomed_after(tested, pieces[: close.turn + 1])))": "no close comes of what is doomed",
    "evidence_of: fault_of -> ending_of": "no close comes of what is doomed",
    "evidence_of: close_of -> ending_of": GOT_FAULT,
    "has_other_end: close_of -> ending_of": GOT_FAULT,
    "ends_late: close_of -> ending_of": GOT_FAULT,
    "has_other_code: close and ending and ending.kind != DOOMED and close.value != ending.value"
    " -> ((close) and (ending.kind != DOOMED) and (close.value != ending.value))": (
        "a close that was got where neither a close nor a fault was sent is told before as Close"
    ),
    "echoes_short: fault_of(x.due) and (is_short(messages, x) or (is_short(pongs, x) and not has_last_pong(x)))"
    " -> ((is_short(messages, x) or (is_short(pongs, x) and not has_last_pong(x))))": SHORT,
    "echoes_short: fault_of -> ending_of": SHORT,
    "echoes_short: messages -> replies": REPLIES,
    "echoes_short: pongs -> replies": REPLIES,
    "echoes_short: is_short(pongs, x) and not has_last_pong(x) -> ((is_short(pongs, x)))": (
        "fewer pongs with the last one are told before as PongsSkipped"
    ),
    "protocol, frames_before: x.end <= ended.place -> x.end < ended.place": (
        "no fault is told at the first byte of a frame"
    ),
    "protocol, undefined_code: ended is None or ended.kind != FAULT -> False": (
        "what ends with a close or with nothing has no code that a close may not have"
    ),
    "protocol, undefined_code: ended is None or ended.kind != FAULT -> ((ended is None))": (
        "what ends with a close or with nothing has no code that a close may not have"
    ),
    "protocol, is_right_control: 0 -> 1 (2)": "a form has none, two or eight further bytes",
    "protocol, is_late: ended is None or ended.kind != FAULT -> ((ended is None))": (
        "a close frame has FIN, and is whole"
    ),
    "protocol, is_late: 1: -> :": "the frame at fault has no FIN, and is no close",
    "protocol, is_late: 1 -> 0": "the frame at fault has no FIN, and is no close",
    (
        "protocol, evidence_of: close and fault_of(due) and is_doomed_after(tested, pieces[: close.turn + "
        "1]) -> ((close) and (is_doomed_after(tested, pieces[: close.turn + 1])))"
    ): (
        "what was sent and is doomed comes to a fault, or to nothing"
    ),
    "protocol, evidence_of: fault_of -> ending_of": "what was sent and is doomed comes to a fault, or to nothing",
    "protocol, evidence_of: behind and not ending_of(got) -> ((behind))": (
        "of what was got and ends with a close or a fault it isn't asked what is open"
    ),
    "protocol, evidence_of: ending_of -> close_of": (
        "of what was got and ends with a close or a fault it isn't asked what is open"
    ),
    "protocol, evidence_of: ending_of -> fault_of": (
        "of what was got and ends with a close or a fault it isn't asked what is open"
    ),
    "protocol, is_not_frames: close_of -> ending_of": "a fault that was got, or sent, is told before",
    "protocol, leaves_ping: close_of -> ending_of": "a fault that was got, or sent, is told before",
    "protocol, leaves_ping: close_of -> ending_of (2)": "a fault that was got, or sent, is told before",
    "protocol, is_undefined: 2999 -> 3000": "3000 is a code that may be sent",
    "protocol, is_undefined: 5000 -> 4999": "4999 is a code that may be sent",
    (
        "protocol, pongs_behind: x.header.opcode == PONG and is_right_control(role, x) -> ((x.header.opcode == PONG))"
    ): (
        "behind a close a pong that is none of the right ones is told before as NotFrames"
    ),
    "protocol, pongs_behind: PONG -> CLOSE (2)": "of an answer the payload and the turn count",
    "protocol, pongs_behind: PONG -> PING (2)": "of an answer the payload and the turn count",
    "protocol, ends_message: at == 0 -> at <= 0": "no place is below 0",
    "protocol, must_end: fault_of -> ending_of": "a close is asked for before",
    "protocol, leaves_close: close_of -> ending_of (2)": "a fault that was got is told before, or is too big",
    "protocol, stays_open: close_of -> ending_of": "a fault that was got is told before, or is too big",
    "protocol, stays_open: close_of -> ending_of (3)": "a fault that was got is told before, or is too big",
    "protocol, stays_open: close_of(x.due) and x.is_open -> ((close_of(x.due)))": (
        "a close that was sent and isn't answered is told before as Close, where no message is open"
    ),
    "protocol, has_own_fault: close_of -> ending_of": "an own close is a close",
    (
        "protocol, has_own_end: not ending_of(x.due) and not close_of(x.got) and x.end == PEER -> ((not "
        "ending_of(x.due)) and (x.end == PEER))"
    ): (
        "a close that was got is told before as OwnClose"
    ),
    (
        'protocol, top: ("OwnClose", has_own_close), ("OwnEnd", has_own_end) -> ("OwnEnd", has_own_end), '
        '("OwnClose", has_own_close)'
    ): (
        "a close that was got is told before as OwnClose"
    ),
    (
        'protocol, top: ("OwnEnd", has_own_end), ("LateFault", has_late_fault) -> ("LateFault", '
        'has_late_fault), ("OwnEnd", has_own_end)'
    ): (
        "a close that was got is told before as OwnClose"
    ),
    (
        'protocol, top: ("Tolerated", is_tolerated), ("NoClose", has_no_close) -> ("NoClose", has_no_close), '
        '("Tolerated", is_tolerated)'
    ): (
        "the one is told of a tolerable fault, the other of a close or of another fault"
    ),
    (
        'protocol, top: ("NoClose", has_no_close), ("BehindClose", goes_on_behind) -> ("BehindClose", '
        'goes_on_behind), ("NoClose", has_no_close)'
    ): (
        "the one is told without a close that was got, the other with one"
    ),
    (
        'protocol, top: ("BehindClose", goes_on_behind), ("TooBig", is_too_big) -> ("TooBig", is_too_big), '
        '("BehindClose", goes_on_behind)'
    ): (
        "the one is told of a close that was got, the other of a fault"
    ),
}
