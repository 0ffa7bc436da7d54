"""What the commands print of records of several files."""


def text_of(raws):
    """Returns records with their ends one after another: one without its end gets a line feed if another one follows."""
    return b"".join(raw if raw.endswith(b"\n") else raw + b"\n" for raw in raws[:-1]) + b"".join(raws[-1:])
