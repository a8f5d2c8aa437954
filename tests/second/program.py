"""What `kitsettle` prints for the bytes of a sheet."""
from . import calls, sheet
from .kit import ROWS, Refused


def kitsettle(text):
    """The output's bytes."""
    try:
        found = sheet.read(text)
        kit = found.kit()
        rows = calls.finished(kit, found.swaps, ROWS)
        if rows is None:
            raise Refused(8, 0)
    except Refused as refused:
        return line("refused", refused.number, refused.place)
    out = [line("rule", kit.grade(head), *head, *tail) for head, tail in rows]
    for number, load in enumerate(found.loads, 4 + len(found.swaps)):
        if kit.grade(load) > kit.bound:
            out.append(line("refused", 10, number))
        else:
            out.append(line("done", *calls.settled(rows, load)))
    return b"".join(out)


def line(*fields):
    return "\t".join(map(str, fields)).encode() + b"\n"
