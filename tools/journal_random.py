"""Random cases of the journal: any image, also one that no history reaches, and any number.

The request promises recovery only for images that a history reaches. The others have answers too, by the same rules,
and a host with a damaged image depends on them.
"""
from journal_cases import LARGEST, shown
from journal_histories import HEADERS, READS

NAMES = ("find", "append", "append-cut", "recover", "recover-cut", "store-append", "store-recovery", "body")
KINDS = [1, 2, 0, 3, 256, 257, 258, 512, 65535]
BODY_SIZES = [0, 3, 4, 5, 9, 47, 48, 49, 53]
AROUND_LONGEST = [32767, 32768, 32769]
# The bytes that an entry's head, end and surroundings consist of.
TELLING = bytes([0x00, 0x01, 0x02, 0x04, 0x09, 0x30, 0x35, 0xA5, 0xFF])


def some_bytes(rng, size):
    return bytes(rng.choices(TELLING, k=size)) if rng.random() < 0.7 else rng.randbytes(size)


def some_entry(model, rng):
    kind = rng.choice((1, 1, 2))
    body = rng.choice(READS + HEADERS)[1]
    if not model.is_named(kind, body):
        body = some_bytes(rng, model.BODY_SIZES[kind])
    return model.entry_bytes(kind, body)


def some_image(model, rng):
    """Entries, then a tail that is torn anywhere, blank, or any bytes; at times a byte is changed or lost."""
    image = b"".join(some_entry(model, rng) for _ in range(rng.choice((0, 1, 1, 2, 3))))
    torn = bytearray(some_entry(model, rng))
    torn[0] = rng.choice((model.BLANK, torn[0]))
    image += rng.choice((b"", bytes(torn[:rng.randrange(54)]), some_bytes(rng, rng.randrange(20))))
    image += bytes(rng.randrange(60) * [model.BLANK])
    if image and rng.random() < 0.3:
        at = rng.randrange(len(image))
        image = image[:at] + some_bytes(rng, rng.randrange(2)) + image[at + 1:]
    if rng.random() < 0.01:
        size = rng.choice(AROUND_LONGEST)
        # Entries up to the very end at times: only then does the last place matter.
        filled = b"".join(some_entry(model, rng) for _ in range(rng.choice((0, 3700))))
        image = (filled[:size - 60] + image + bytes(size * [rng.choice((model.BLANK, model.BLANK, model.END))]))[:size]
    return image


def some_number(rng, usual):
    """A number as it is used, or one at a limit."""
    limits = (0, 1, 2, 8, 9, 52, 53, 255, 256, 32758, 32759, 32767, 32768, 32769, LARGEST - 1, LARGEST)
    return rng.randrange(usual) if rng.random() < 0.8 else rng.choice(limits)


def some_body(model, rng):
    kind = rng.choice(KINDS[:2]) if rng.random() < 0.8 else rng.choice(KINDS)
    size = model.BODY_SIZES[kind] if kind in model.BODY_SIZES and rng.random() < 0.9 else rng.choice(BODY_SIZES)
    return kind, shown(some_bytes(rng, size))


def some_case(model, rng):
    name = rng.choice(NAMES)
    image = shown(some_image(model, rng))
    kind, body = some_body(model, rng)
    if name == "body":
        numbers = " ".join(str(some_number(rng, 256)) for _ in range(4))
        return f"journal-body {numbers} {some_number(rng, 12)} {shown(some_bytes(rng, rng.randrange(12)))}"
    words = {
        "find": f"{image}",
        "append": f"{kind} {body} {image}",
        "append-cut": f"{kind} {body} {some_number(rng, 54)} {image}",
        "recover": f"{image}",
        "recover-cut": f"{some_number(rng, 54)} {image}",
        "store-append": f"{some_number(rng, 32768)} {kind} {body} {some_number(rng, 54)}",
        "store-recovery": f"{some_number(rng, 32768)} {some_number(rng, 54)} {some_number(rng, 54)}",
    }
    return f"journal-{name} {words[name]}"


def at_longest(model):
    """The limit of an image's length, and entries that end at the last byte of the longest image."""
    for size in AROUND_LONGEST:
        blank, (kind, body) = bytes(size * [model.BLANK]), READS[0]
        # 3,640 reads take 32,760 bytes: 8 are left in the longest image, which is one too few. 3,639 leave 17.
        for reads, torn in ((0, b"\x01"), (3639, b""), (3640, b""), (3639, body), (3640, b"\x01")):
            image = reads * model.entry_bytes(kind, body) + torn
            image = (image + blank)[:size - 1] + (torn[:1] or blank[:1])
            yield f"journal-find {shown(image)}"
            yield f"journal-recover {shown(image)}"
            yield f"journal-recover-cut 1 {shown(image)}"
            for what in (READS[0], HEADERS[0], (3, body), (1, b"")):
                yield f"journal-append {what[0]} {shown(what[1])} {shown(image)}"
            yield f"journal-append-cut {kind} {shown(body)} {LARGEST} {shown(image)}"
