"""Frames of requests and replies, as docs/formats.md spells them, for the scripts of this folder and of tools/attacks."""


def execute(text, version, session=1, parameters=b"\0"):
    """The frame of a request to execute a text, without parameters if none are given."""
    said = text.encode()
    body = session.to_bytes(2, "big") + version.to_bytes(8, "big") + len(said).to_bytes(4, "big") + said + parameters
    return b"\1\2" + len(body).to_bytes(4, "big") + body


def sealed(cells):
    """Parameters @c0, @c1 and so on of the type BIGINT, with these cells of the first column key, deterministic ones."""
    parts = [len(cells).to_bytes(1, "big")]
    for number, cell in enumerate(cells):
        name = f"c{number}".encode()
        parts.append(len(name).to_bytes(2, "big") + name + b"\2\1\0\0\0\1\4" + len(cell).to_bytes(2, "big") + cell)
    return b"".join(parts)


def record(*frames):
    """A record of a journal after its open gate, as docs/formats.md spells it; a closed gate ends the file."""
    held = b"".join(frames)
    return b"\1" + len(held).to_bytes(8, "big") + held


def frames_in(data):
    """The whole frames at the front of some bytes."""
    frames, at = [], 0
    while at + 6 <= len(data):
        behind = at + 6 + int.from_bytes(data[at + 2 : at + 6], "big")
        if behind > len(data):
            break
        frames.append(data[at:behind])
        at = behind
    return frames


def is_last(frame):
    """Whether a reply ends the answer to its request: Described, Done or Refused."""
    return frame[1] in (0x81, 0x84, 0x85)


def numbers_in(frames):
    """The numbers of the rows of one column among some replies."""
    return [int.from_bytes(it[9:17], "big", signed=True) for it in frames if it[1] == 0x83]
