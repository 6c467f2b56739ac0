"""Scripts of `wst session` with the pieces of their takes cut smaller: what is told must be the same."""

from dataclasses import dataclass


@dataclass
class Cut:
    """A script in which takes are cut, and of each take of the first script into how many it was cut."""

    script: bytes
    counts: list


def cuts_of(script):
    """The script with each take in turn cut in two at each place, and with all takes one byte at a time."""
    lines = script.splitlines(keepends=True)
    takes = [at for at, line in enumerate(lines) if line.startswith(b"take ")]
    if not takes:
        raise ValueError("nothing to cut: the script has no take")
    cuts = [cut_at(lines, takes, {at: pair}) for at in takes for pair in halves(piece_of(lines[at]))]
    return [*cuts, cut_at(lines, takes, {at: single_bytes(piece_of(lines[at])) for at in takes})]


def piece_of(line):
    """The bytes of a take, and the words behind them."""
    _, piece, key = line.split(b" ")
    return b"" if piece == b"-" else bytes.fromhex(piece.decode()), key


def halves(take):
    piece, key = take
    return [[line_of(piece[:at], key), line_of(piece[at:], key)] for at in range(len(piece) + 1)]


def single_bytes(take):
    piece, key = take
    return [line_of(piece[at : at + 1], key) for at in range(len(piece))] or [line_of(b"", key)]


def line_of(piece, key):
    return b"take %s %s" % (piece.hex().encode() or b"-", key)


def cut_at(lines, takes, changed):
    """The script with the lines at these places replaced by several."""
    script = b"".join(b"".join(changed.get(at, [line])) for at, line in enumerate(lines))
    return Cut(script, [len(changed.get(at, [b""])) for at in takes])


def joined(output, counts):
    """The output with the lines `taken N put HEX` of what was one take made one line: the numbers added, the bytes
    joined. All other lines stand as they are."""
    lines, part = [], []
    counts = iter(counts)
    left = next(counts, 1)
    for line in output.splitlines(keepends=True):
        words = line.split()
        if words[:1] != [b"taken"] or len(words) != 4:
            lines.append(line)
            continue
        part.append(words)
        left -= 1
        if left == 0:
            lines.append(joined_line(part))
            part, left = [], next(counts, 1)
    return b"".join([*lines, *(b" ".join(words) + b"\n" for words in part)])


def joined_line(part):
    used = sum(int(words[1]) for words in part)
    put = b"".join(words[3] for words in part if words[3] != b"-")
    return b"taken %d put %s\n" % (used, put or b"-")
