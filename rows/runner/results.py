"""What a row wants and what came of it."""

from dataclasses import dataclass

LONG = 2000


@dataclass
class Failure:
    """A row that failed: what was run, as a line for a shell, and what differs: its name, wanted and got."""

    where: str
    name: str
    ran: str
    differences: list

    def text(self):
        lines = [f"FAILED {self.where}: {self.name}", f"  ran:    {self.ran}"]
        for what, wanted, got in self.differences:
            lines += difference(what, wanted, got)
        return "\n".join(lines)


def difference(what, wanted, got):
    """The lines for one thing that differs; of long ones the part where they part."""
    wanted, got = shown(wanted), shown(got)
    if len(wanted) + len(got) > LONG:
        at = next((i for i, (a, b) in enumerate(zip(wanted, got)) if a != b), min(len(wanted), len(got)))
        what = f"{what}, of {len(wanted)} and {len(got)} characters from number {at} on"
        wanted, got = wanted[at : at + LONG // 2], got[at : at + LONG // 2]
    return [f"  {what}:", f"    wanted: {wanted}", f"    got:    {got}"]


def shown(value):
    """Bytes as text between quotation marks, and anything else as it prints."""
    return repr(value)[1:] if isinstance(value, bytes) else str(value)
