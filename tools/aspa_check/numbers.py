"""AS numbers and paths as people write them, and the bytes of an AS_PATH attribute."""

import re
import struct

GREATEST = 2**32 - 1

# Types of a segment, by the bracket that opens it: `bgpdump` and most routers write them so.
SET, SEQUENCE, CONFED_SEQUENCE, CONFED_SET = 1, 2, 3, 4
OPENING = {"{": SET, "(": CONFED_SEQUENCE, "[": CONFED_SET}
CLOSING = {SET: "}", CONFED_SEQUENCE: ")", CONFED_SET: "]"}
# A segment's count is one byte.
MOST_SEGMENT = 255


class Wrong(Exception):
    """What is wrong with something that was read, in words. Who reads the file says where."""


_NUMBER = re.compile(r"(?:AS)?([0-9]+)(?:\.([0-9]+))?\Z", re.IGNORECASE | re.ASCII)
_WORD = re.compile(r"[{}()\[\]]|[^\s,{}()\[\]]+")


def as_number(word):
    """64500, AS64500, or 1.10 for 65546."""
    match = _NUMBER.match(word)
    if not match or len(word) > 24:
        raise Wrong(f"{shown(word)} is not an AS number")
    high, low = match.groups()
    if low is None:
        number = int(high)
    elif int(high) > 65535 or int(low) > 65535:
        raise Wrong(f"{shown(word)} is not an AS number: both halves are below 65536")
    else:
        number = int(high) * 65536 + int(low)
    if number > GREATEST:
        raise Wrong(f"{shown(word)} is not an AS number: it is above {GREATEST}")
    return number


def numbers(text):
    """AS numbers divided by spaces or commas."""
    return [as_number(word) for word in text.replace(",", " ").split()]


def segments(text):
    """A path as (type, numbers) from the left end: `20 10`, `AS20 AS10`, `20 {10,30}`. Nothing for the empty path."""
    if text.isascii() and text.replace(" ", "").isdigit():
        words = text.split()
        path = tuple(map(int, words)) if max(map(len, words)) <= 10 else (GREATEST + 1,)
        if max(path) <= GREATEST:
            return ((SEQUENCE, path),)
    found, kind, held = [], SEQUENCE, []
    for word in _WORD.findall(text):
        if word in OPENING:
            if kind != SEQUENCE:
                raise Wrong(f"'{word}' where '{CLOSING[kind]}' is wanted")
            if held:
                found.append((SEQUENCE, tuple(held)))
            kind, held = OPENING[word], []
        elif word in "})]":
            if kind == SEQUENCE or word != CLOSING[kind]:
                raise Wrong(f"'{word}' closes nothing")
            if len(held) > MOST_SEGMENT:
                raise Wrong(f"a segment of {len(held)} numbers: its count is one byte")
            found.append((kind, tuple(held)))
            kind, held = SEQUENCE, []
        else:
            held.append(as_number(word))
    if kind != SEQUENCE:
        raise Wrong(f"'{CLOSING[kind]}' is missing")
    if held:
        found.append((SEQUENCE, tuple(held)))
    return tuple(found)


def attribute(path):
    """The value of an AS_PATH attribute with four-byte numbers. A long sequence becomes several: merged, it is the same path."""
    out = []
    for kind, held in path:
        for start in range(0, max(len(held), 1), MOST_SEGMENT):
            part = held[start : start + MOST_SEGMENT]
            out.append(bytes((kind, len(part))) + struct.pack(f">{len(part)}I", *part))
    return b"".join(out)


def merged(path):
    """The numbers of all segments, a run of one number once: AS(N) first, AS(1) last."""
    out, last = [], None
    for _, held in path:
        for number in held:
            if number != last:
                out.append(number)
                last = number
    return tuple(out)


def written(path):
    """Segments as text again."""
    words = []
    for kind, held in path:
        if kind == SEQUENCE:
            words.extend(map(str, held))
        else:
            opening = next(bracket for bracket, of in OPENING.items() if of == kind)
            words.append(opening + ("," if kind == SET else " ").join(map(str, held)) + CLOSING[kind])
    return " ".join(words)


def shown(text, most=60):
    """Foreign text within quotes, on one line and not too long."""
    text = str(text)
    return ascii(text if len(text) <= most else text[:most] + "...")
