"""The journal of request (v), document 02: a model to read beside the definitions of crates/journal.

It is written from the request's text and shares nothing with the proved code, so that tools/journal-model can compare
the two. An image is bytes, a store is a pair (offset, byte), and a plan is the list of stores of one operation, in
order. A power cut keeps the first stores of a plan and loses the others.

Limit: a store replaces a byte, whatever stood there. That flash can only be erased by blocks is the host's matter.
"""
from collections import namedtuple

LONGEST_IMAGE = 32768
# An output that is longer counts as one of so many bytes, for every writer (rule 1.7).
LONGEST_OUTPUT = 65535
BLANK = 0xFF
END = 0xA5
# Kind 1 is a read: answer number and counts of the three lists, one byte each. Kind 2 is a header: 48 raw bytes.
BODY_SIZES = {1: 4, 2: 48}

TOO_LONG, NO_ROOM, NOT_NAMED = 7, 16, 18

Entry = namedtuple("Entry", "offset kind body")
Found = namedtuple("Found", "entries next_offset torn_len")


class Refused(Exception):
    """A refusal, which changes nothing. Its one argument is the number."""


def whole_len(body_size):
    """The length of an entry: two bytes of length, two of kind, the body, and the end byte."""
    return 4 + body_size + 1


def two_bytes(number):
    return number.to_bytes(2, "little")


def number_at(image, offset):
    return int.from_bytes(image[offset:offset + 2], "little")


def entry_bytes(kind, body):
    return two_bytes(whole_len(len(body))) + two_bytes(kind) + body + bytes([END])


def is_named(kind, body):
    return BODY_SIZES.get(kind) == len(body)


def entry_at(image, offset):
    """The entry that stands at an offset, or None: its length has to fit its kind, and its end byte has to stand."""
    kind = number_at(image, offset + 2)
    if kind not in BODY_SIZES:
        return None
    end = offset + whole_len(BODY_SIZES[kind])
    if number_at(image, offset) != end - offset:
        return None
    if len(image) < end:
        return None
    if image[end - 1] != END:
        return None
    return Entry(offset, kind, image[offset + 4:end - 1])


def torn_len(tail):
    """How many bytes of what follows the last entry are torn: all up to the last one that is not blank."""
    return len(tail.rstrip(bytes([BLANK])))


def find(image):
    """The entries from offset 0 on until none stands, where the next append may start, and the torn tail from there."""
    if len(image) > LONGEST_IMAGE:
        raise Refused(TOO_LONG)
    entries, offset = [], 0
    while (entry := entry_at(image, offset)) is not None:
        entries.append(entry)
        offset += whole_len(len(entry.body))
    return Found(entries, offset, torn_len(image[offset:]))


def inside_longest(offset, byte):
    """A store, or None if no image reaches so far."""
    return (offset, byte) if offset < LONGEST_IMAGE else None


def append_store(offset, kind, body, index):
    """Store number `index` of an append at an offset: the two length bytes last, high byte before low."""
    if not is_named(kind, body):
        return None
    entry = entry_bytes(kind, body)
    places = [*range(2, len(entry)), 1, 0]
    if index >= len(places):
        return None
    return inside_longest(offset + places[index], entry[places[index]])


def recovery_store(next_offset, torn, index):
    """Store number `index` of a recovery: it erases the torn tail from the last byte back."""
    if index >= torn:
        return None
    return inside_longest(next_offset + torn - 1 - index, BLANK)


def append_offset(image, kind, body):
    """Where an append stores its entry: after the last entry found, whatever stands there. Refusals are in order."""
    if len(image) > LONGEST_IMAGE:
        raise Refused(TOO_LONG)
    if not is_named(kind, body):
        raise Refused(NOT_NAMED)
    offset = find(image).next_offset
    if offset + whole_len(len(body)) > len(image):
        raise Refused(NO_ROOM)
    return offset


def append_plan(image, kind, body):
    """The stores of an append."""
    offset = append_offset(image, kind, body)
    return [append_store(offset, kind, body, index) for index in range(whole_len(len(body)))]


def recovery_plan(image):
    """The stores of a recovery."""
    found = find(image)
    return [recovery_store(found.next_offset, found.torn_len, index) for index in range(found.torn_len)]


def images_after_each(image, plan):
    """The image before the first store of a plan, after one store, after two, and so on."""
    yield image
    changed = bytearray(image)
    for store in plan:
        # A store outside the image changes nothing.
        if store is not None and store[0] < len(image):
            changed[store[0]] = store[1]
        yield bytes(changed)


def perform(image, plan):
    """The image after all stores of a plan."""
    for left in images_after_each(image, plan):
        pass
    return left


def read_body(numbers, out, at):
    """A buffer with the body of kind 1 at an offset: answer number and the three counts, each of which fits a byte."""
    if any(number > 255 for number in numbers):
        raise Refused(NOT_NAMED)
    if at + len(numbers) > min(len(out), LONGEST_OUTPUT):
        raise Refused(NO_ROOM)
    return out[:at] + bytes(numbers) + out[at + len(numbers):]
