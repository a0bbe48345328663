"""What inspect shows of the image of a journal, read by the model tools/journal.py, which shares nothing with the proved
code; and images to show: those that appends, recoveries and power cuts reach, and any others."""
import journal
import shown

# The first line of an input that is an image.
MARK = b"journal\n"
MEANINGS = (
    "read to its end", "a length that does not fit", "a cookie placeholder that is not all zeros",
    "a sealed field inside a sealed one", "a draft identification that is not ASCII", "a sealed field was not opened",
    "a header that reaches past the packet's end", "a packet of more than 65535 bytes", "more than 128 fields",
    "a sealed field for which no result is lent", "a lent result that is not well formed",
    "a version other than 3, 4 and 5", "a mode that is neither request nor response",
    "a timescale that is none of the four", "a flag that has no meaning", "a field that is too long to write",
    "no room in the output", "no cipher", "a field that cannot be made or written",
)
TOO_LONG = "refused (7): an image of more than 32768 bytes"
# How many bytes of a torn tail are shown.
SHOWN_TAIL = 128
# Bytes that the heads and ends of entries consist of.
TELLING = bytes([0x00, 0x01, 0x02, 0x09, 0x35, 0xA5, 0xFF])


def answer(number):
    if number >= len(MEANINGS):
        return f"unknown ({number}): a number that no answer has"
    word = {0: "accepted", 5: "read in part"}.get(number, "refused")
    return f"{word} ({number}): {MEANINGS[number]}"


def with_bytes(line, data, most):
    """A line that ends with the first bytes, and the lines below it that the others take: none goes past column 108."""
    lines = [line]
    for byte in data[:most]:
        if len(lines[-1]) + 2 > 108:
            lines.append(" " * 19)
        lines[-1] += f"{byte:02x}"
    lines[-1] += ".." if len(data) > most else ""
    return lines


def refusal_of(body):
    """The number by which a header of 48 bytes is refused, or 0."""
    version, mode = body[0] // 8 % 8, body[0] % 8
    if version in (3, 4):
        return 0
    if version != 5:
        return 11
    if mode not in (3, 4):
        return 12
    if body[12] > 3:
        return 13
    return 14 if body[14] or body[15] > 7 else 0


def header_lines(body, at):
    refusal = refusal_of(body)
    if refusal:
        place = shown.named("  bytes", f"48 bytes at {at}: ")
        return [shown.named("header", answer(refusal))] + with_bytes(place, body, 48)
    return shown.newer_lines(body, at) if body[0] // 8 % 8 == 5 else shown.older_lines(body, at)


def entry_lines(number, entry):
    word = {1: "read", 2: "header"}[entry.kind]
    title = shown.named(f"entry {number}", f"{word}, {len(entry.body) + 5} bytes at {entry.offset}")
    if entry.kind == 2:
        return ["", title] + header_lines(entry.body, entry.offset + 4)
    counts = "{} authenticated, {} untrusted, {} encrypted".format(*entry.body[1:])
    return ["", title, shown.named("  answer", answer(entry.body[0])), shown.named("  fields", counts)]


def image_lines(image, form):
    """All lines of an image that is given in a form."""
    if len(image) > journal.LONGEST_IMAGE:
        return [TOO_LONG, "", shown.named("image", f"more than 32768 bytes, given {form}")]
    found = journal.find(image)
    tail = image[found.next_offset : found.next_offset + found.torn_len]
    verdict = "with a torn tail, which a recovery erases" if tail else "with no torn tail"
    lines = [f"accepted (0): a journal {verdict}", "", shown.named("image", f"{shown.counted(len(image))}, given {form}")]
    lines += [shown.named("entries", len(found.entries))]
    for number, entry in enumerate(found.entries):
        lines += entry_lines(number, entry)
    room = shown.counted(len(image) - found.next_offset)
    lines += ["", shown.named("next append", f"at {found.next_offset}, with room for {room}")]
    if not tail:
        return lines + [shown.named("torn tail", "none")]
    place = shown.named("torn tail", f"{shown.counted(len(tail))} at {found.next_offset}: ")
    return lines + with_bytes(place, tail, SHOWN_TAIL)


def with_small_counts(image):
    """The image with smaller delays and dispersions in its headers, so that no product that inspect makes of them in
    order to round it is rounded itself."""
    calm = bytearray(image)
    for entry in journal.find(image).entries:
        if entry.kind == 2:
            calm[entry.offset + 8] %= 64
            calm[entry.offset + 12] %= 8
    return bytes(calm)


def random_body(draw):
    """A kind and a body: any read; a header that can be read, also with one byte changed that may have it refused, or any
    bytes."""
    if draw.randrange(2):
        return 1, bytes([draw.choice((0, 5, draw.randrange(20), draw.randrange(256)))]) + draw.randbytes(3)
    body = bytearray(draw.randbytes(48))
    if draw.randrange(4):
        body[0] = draw.randrange(4) * 64 + draw.choice((3, 4, 5, 5)) * 8 + draw.choice((3, 4))
        body[12:16] = bytes([draw.randrange(4), draw.randrange(256), 0, draw.randrange(8)])
        body[1] = draw.randrange(20)
    if draw.randrange(4) == 0:
        body[draw.choice((0, 12, 14, 15))] = draw.randrange(256)
    return 2, bytes(body)


def reached(draw):
    """An image that is reached from a blank one. After a cut no append comes before a recovery has run to its end."""
    image = bytes(draw.choice((20, 100, 400, 1000)) * [journal.BLANK])
    is_cut = False
    for _ in range(draw.randrange(12)):
        kind, body = random_body(draw)
        try:
            plan = journal.recovery_plan(image) if is_cut else journal.append_plan(image, kind, body)
        except journal.Refused:
            continue
        left = list(journal.images_after_each(image, plan))
        is_cut = draw.randrange(4) == 0
        image = draw.choice(left) if is_cut else left[-1]
    return with_small_counts(image)


def unreached(draw):
    """Entries and then any bytes, and bytes changed, lost or added anywhere."""
    image = bytearray(reached(draw).rstrip(bytes([journal.BLANK])) if draw.randrange(4) else b"")
    size = draw.choice((0, 10, 60, 300))
    image += draw.choice((bytes(draw.choices(TELLING, k=size)), draw.randbytes(size)))
    for _ in range(draw.randrange(3)):
        at = draw.randrange(len(image) + 1)
        image[at : at + draw.randrange(3)] = draw.choice((draw.randbytes(1), bytes(draw.choices(TELLING, k=1)), b""))
    return with_small_counts(bytes(image))


def with_each_header():
    """A header with each first byte, and headers of NTPv5 with each timescale and each flag, also with those that have it
    refused."""
    bodies = [bytes([first]) + bytes(47) for first in range(256)]
    bodies += [bytes([0x2B]) + bytes(11) + bytes([timescale]) + bytes(35) for timescale in range(6)]
    bodies += [bytes([0x2C]) + bytes(13) + (1 << bit).to_bytes(2, "big") + bytes(32) for bit in range(16)]
    return b"".join(journal.entry_bytes(2, body) for body in bodies)


def with_each_answer():
    """A read with each number, also with those that no answer has."""
    return b"".join(journal.entry_bytes(1, bytes([number, number // 2, number // 3, 255 - number])) for number in range(256))
