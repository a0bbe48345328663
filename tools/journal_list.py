"""The journal's cases for the stored list: oracle/list/journal.txt, with the model's answers.

Each group has a comment that says how it was made. `rt ci` replays the list without Python, so it has every name, both
sides of each limit, and each store of an append and of a recovery. Images around 32,768 bytes are too long for it.
"""
from journal_cases import LARGEST, answer, shown
from journal_histories import HEADERS, READS, WHOLE_READ

HEAD = """\
# The journal of request (v). tools/journal-model --list wrote this list, with the answers of the model in
# tools/journal.py, which shares no code with the port. ntp-proto has no journal. A read is an entry of 9 bytes, a
# header one of 53.
"""
READ, HEADER = "07010203", HEADERS[2][1].hex()
ONE_READ = WHOLE_READ.hex()
BLANK = "ff"


def of_length(start, length):
    """An image in hex: these bytes, then blank ones up to the length."""
    return (start + length * BLANK)[:2 * length] or "-"


def torn(model, kind, body, stores, before="", length=27):
    """The image after the first stores of an append."""
    image = bytes.fromhex(of_length(before, length))
    return shown(model.perform(image, model.append_plan(image, kind, bytes.fromhex(body))[:stores]))


def appends(model):
    image = of_length(ONE_READ, 27)
    yield "An append of a read after a read, cut after each store, and what is then found", [
        line for cut in (*range(10), 10, LARGEST)
        for line in (f"journal-append-cut 1 {READ} {cut} {image}",
                     f"journal-find {torn(model, 1, READ, cut, ONE_READ)}")]
    yield "An append of a header whose body holds whole reads, cut at its first, middle and last stores", [
        line for cut in (0, 1, 2, 15, 16, 49, 50, 51, 52, 53, 54)
        for line in (f"journal-append-cut 2 {HEADER} {cut} {of_length('', 54)}",
                     f"journal-find {torn(model, 2, HEADER, cut, '', 54)}")]
    yield "Whole appends, one after the other, up to the last byte", [
        f"journal-append 1 {READ} {of_length('', 18)}", f"journal-append 1 a5a5a5a5 {of_length(ONE_READ, 18)}",
        f"journal-append 1 ffffffff {of_length(2 * ONE_READ, 27)}",
        f"journal-append 2 {HEADER} {of_length(ONE_READ, 62)}",
        f"journal-find {2 * ONE_READ}{torn(model, 2, HEADER, 53, '', 53)}{ONE_READ}"]


def refusals(_model):
    yield "No room: both sides of the lengths in which a read or a header has room", [
        f"journal-append {kind} {body} {of_length(start, length)}"
        for kind, body, start, length in (
            (1, READ, "", 0), (1, READ, "", 1), (1, READ, "", 8), (1, READ, "", 9), (1, READ, "", 10),
            (1, READ, ONE_READ, 17), (1, READ, ONE_READ, 18), (1, READ, ONE_READ, 9), (2, HEADER, "", 52),
            (2, HEADER, "", 53), (2, HEADER, ONE_READ, 61), (2, HEADER, ONE_READ, 62))]
    yield "Kinds that are not named; some have a named one as their low byte", [
        f"journal-append {kind} {body} {of_length('', 60)}"
        for kind, body in ((0, READ), (3, READ), (3, HEADER), (256, READ), (257, READ), (258, HEADER), (512, HEADER),
                           (65535, READ))]
    yield "Bodies of a size that is not the kind's", [
        f"journal-append {kind} {body} {of_length('', 60)}" for kind, body in (
            (1, "-"), (1, "070102"), (1, "0701020304"), (1, HEADER), (1, ONE_READ),
            (2, "-"), (2, HEADER[2:]), (2, HEADER + "00"), (2, READ))]
    yield "18 comes before 16: no room either", [
        f"journal-append{name} {of_length('', 8)}"
        for name in (" 3 07010203", " 1 070102", " 2 07010203", "-cut 0 - 0", "-cut 1 070102 5")]


def recoveries(model):
    read = torn(model, 1, READ, 8, ONE_READ)
    yield "A recovery of a read that lacks its low length byte, cut after each store", [
        f"journal-recover-cut {cut} {read}" for cut in (*range(10), LARGEST)]
    header = torn(model, 2, HEADER, 52, "", 54)
    yield "A recovery of such a header whose body holds whole reads, cut at its first, middle and last stores", [
        f"journal-recover-cut {cut} {header}" for cut in (0, 1, 2, 8, 9, 43, 44, 45, LARGEST)]
    yield "Recoveries of each image that a cut append of a read leaves", [
        f"journal-recover {torn(model, 1, READ, cut, ONE_READ)}" for cut in range(10)]
    yield "Recoveries of images that a cut recovery left, and of recovered ones", [
        f"journal-recover {image}"
        for whole in (read, header) for cut in (1, 6, 7, 8, 43)
        for image in [shown(model.perform(bytes.fromhex(whole), model.recovery_plan(bytes.fromhex(whole))[:cut]))]]
    yield "Nothing to erase", [
        f"journal-recover {image}" for image in ("-", "ff", of_length("", 20), ONE_READ, of_length(ONE_READ, 12))]


def without_recovery(model):
    """A header is cut after 16 stores, and a read is appended without a recovery: its end meets a read of the body."""
    image = torn(model, 2, HEADER, 16, "", 53)
    left = model.perform(bytes.fromhex(image), model.append_plan(bytes.fromhex(image), 1, bytes.fromhex(READ)))
    return image, shown(left)


def unrecovered(model):
    image, left = without_recovery(model)
    yield "A host that appends after a cut without a recovery: two entries are found, and the second was made up", [
        f"journal-find {image}", f"journal-append 1 {READ} {image}", f"journal-find {left}"]
    recovered = shown(model.perform(bytes.fromhex(image), model.recovery_plan(bytes.fromhex(image))))
    yield "The same with the recovery: one entry", [
        f"journal-recover {image}", f"journal-append 1 {READ} {recovered}",
        f"journal-find {torn(model, 1, READ, 9, '', 53)}"]
    yield "An append goes after the last entry found, not after a torn tail", [
        f"journal-append {kind} {body} {of_length(ONE_READ + tail, 62)}"
        for kind, body in ((1, READ), (2, HEADER)) for tail in ("ff00", "ffff01", "09000100070102", 53 * "00")]


def unreached(_model):
    yield "Images that no history reaches: each lacks one thing that an entry needs", [
        f"journal-find {image}" for image in (
            "0900010007010203ff", "0900010007010203a4", "09000100070102a503", "09000100070102a5", "0900010007010203",
            "0900010107010203a5", "0901010007010203a5", "0900020007010203a5", "0900000007010203a5",
            "0900030007010203a5", "0009000107010203a5", "0400010007010203a5", "0a00010007010203a5",
            "0a0001000701020300a5", "ffff010007010203a5", "ff00010007010203a5", "09ff010007010203a5",
            "3500010007010203a5", "35000200" + 49 * "00", "35000200" + 47 * "00" + "a5", "35000200" + 48 * "00" + "a5",
            "35000100" + 48 * "00" + "a5", "30000200" + 48 * "00" + "a5", "09000200" + 48 * "00" + "a5")]
    yield "Images that no history reaches: something stands before an entry, and images shorter than one", [
        f"journal-find {image}" for image in (
            "ff" + ONE_READ, "00" + ONE_READ, ONE_READ + "ff" + ONE_READ, ONE_READ + "00" + ONE_READ, ONE_READ[2:],
            "-", "ff", "00", "09", "0900", "090001", "09000100", "a5", "ff00ff00ff", "ffffffffffffffff00")]
    yield "Recoveries of such images, whole and cut: also the first byte of the torn tail is erased", [
        f"journal-recover{cut} {image}"
        for cut in ("", "-cut 1", "-cut 3")
        for image in ("0900010007010203ff", ONE_READ + "00", ONE_READ + "00ffff01ff", "09")]


def single_stores(_model):
    yield "Each store of an append of a read, and past the last", [
        f"journal-store-append {offset} 1 {READ} {index}"
        for offset, indices in ((0, (*range(10), 10, LARGEST)), (53, (0, 6, 7, 8, 9))) for index in indices]
    yield "Stores of an append of a header", [
        f"journal-store-append 9 2 {HEADER} {index}" for index in (0, 1, 2, 7, 49, 50, 51, 52, 53, LARGEST)]
    yield "No store of a kind or a body that is not named", [
        f"journal-store-append 0 {kind} {body} 0" for kind, body in (
            (0, READ), (3, READ), (257, READ), (65535, READ), (1, "-"), (1, HEADER), (2, READ), (258, HEADER))]
    yield "No store at offset 32768 or later", [
        f"journal-store-append {offset} 1 {READ} {index}" for offset, index in (
            (32759, 6), (32760, 6), (32760, 5), (32766, 7), (32767, 7), (32767, 8), (32768, 8), (LARGEST, 8),
            (LARGEST, 0))]
    yield "Each store of a recovery, past the last, and at offset 32768 or later", [
        f"journal-store-recovery {words}" for words in (
            "9 3 0", "9 3 1", "9 3 2", "9 3 3", "0 1 0", "0 0 0", "0 53 52", "32760 8 0", "32760 9 0", "32760 9 1",
            "32767 1 0", "32768 1 0", f"0 {LARGEST} {LARGEST}", f"0 {LARGEST} {LARGEST - 1}", f"{LARGEST} {LARGEST} 0",
            f"{LARGEST} 1 0", f"0 {LARGEST} {LARGEST - 32768}", f"0 {LARGEST} {LARGEST - 32769}", f"9 3 {LARGEST}")]


def bodies(_model):
    blank = 6 * "55"
    yield "The body of a read: where it is written, and no room", [
        f"journal-body 5 1 2 3 {at} {out}" for at, out in (
            (0, blank), (1, blank), (2, blank), (3, blank), (6, blank), (7, blank), (LARGEST, blank),
            (LARGEST - 3, blank), (0, "55555555"), (0, "555555"), (0, "-"))]
    yield "Numbers that fit a byte, and that do not", [
        f"journal-body {words} 0 {blank}" for words in (
            "0 0 0 0", "255 255 255 255", "256 0 0 0", "0 256 0 0", "0 0 256 0", "0 0 0 256", f"{LARGEST} 0 0 0",
            f"0 0 0 {LARGEST}", "7 0 0 257", "18 1 0 0")]
    yield "18 comes before 16", [f"journal-body 256 0 0 0 3 {blank}", f"journal-body 0 0 0 256 {LARGEST} -"]


# Lines that are no cases: a word is missing, left over, of another kind or does not fit its width.
NO_CASES = [
    "journal-find", "journal-find f", "journal-find FF", "journal-find - -", "journal-append 1 07010203",
    "journal-append 65536 07010203 ff", "journal-append -1 07010203 ff", "journal-append-cut 1 07010203 ff",
    f"journal-append-cut 1 07010203 {LARGEST + 1} ff", "journal-recover", "journal-recover-cut ff ff",
    "journal-store-append 0 1 07010203", "journal-store-append 0 65536 07010203 0", "journal-store-recovery 0 1",
    "journal-body 5 1 2 3 0", "journal-body 5 1 2 03 0 55555555", "journal-erase ff",
]


def groups(model):
    """Each group: its comment, and its cases. A case stands in the first group that has it."""
    earlier = set()
    for part in appends, refusals, recoveries, unrecovered, unreached, single_stores, bodies:
        for comment, cases in part(model):
            new = [case for case in dict.fromkeys(cases) if case not in earlier]
            earlier.update(new)
            yield comment, new


def pairs(model):
    """The cases and their answers."""
    answered = [(case, answer(model, case)) for _, cases in groups(model) for case in cases]
    return answered + [(line, "?") for line in NO_CASES]


def text(model):
    """The file's contents."""
    lines = [f"{case} => {reply}" for case, reply in pairs(model)]
    out = [HEAD]
    for comment, cases in [*groups(model), ("Lines that are no cases", NO_CASES)]:
        out += [f"# {comment}\n"] + [lines.pop(0) + "\n" for _ in cases]
    return "".join(out)
