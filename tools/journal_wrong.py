"""Wrong programs of the journal: a comparison that no wrong program fails shows nothing.

Each is the model with one mistake, as an edit of the text of tools/journal.py. For each some case of
tools/journal-model must have another answer than the model's.

The word after its sentence says whether it passes the four statements of tools/journal_histories.py, which do not look
at single bytes. Most pass: a journal that is written and read with the same mistake loses nothing, the first torn byte
of every image reached is still blank, and no image reached lacks an end byte. That is why the image is compared after
each store, and why the cases have images that no history reaches.

A host that appends after a cut without a recovery is wrong too: `without_recovery` in tools/journal_list.py has an
image in which it makes up an entry. It can't lose one, since no store goes before the end of the last entry found.
"""
import os
import types
from collections import namedtuple

import journal
from journal_cases import answer
from journal_histories import HEADERS, READS, Histories, StatementFails
from journal_list import without_recovery

Wrong = namedtuple("Wrong", "says statements edits")

STORES = "[*range(2, len(entry)), 1, 0]"
HOW_LONG = "    if len(image) > LONGEST_IMAGE:\n        raise Refused(TOO_LONG)\n"
WHICH = "    if not is_named(kind, body):\n        raise Refused(NOT_NAMED)\n"
ROOM = ("    offset = find(image).next_offset\n    if offset + whole_len(len(body)) > len(image):\n"
        "        raise Refused(NO_ROOM)\n")
TORN = "len(tail.rstrip(bytes([BLANK])))"
ERASED = "next_offset + torn - 1 - index"
RECOVERED = "range(found.torn_len)"
FITS = "    if any(number > 255 for number in numbers):\n        raise Refused(NOT_NAMED)\n"
HAS_ROOM = "    if at + len(numbers) > min(len(out), LONGEST_OUTPUT):\n        raise Refused(NO_ROOM)\n"

WRONG = [
    # The order of the stores.
    Wrong("the low length byte is stored before the high one", "pass", [(STORES, "[*range(2, len(entry)), 0, 1]")]),
    Wrong("an entry is stored from its first byte on", "pass", [(STORES, "[*range(len(entry))]")]),
    Wrong("the end byte is stored first", "pass", [(STORES, "[len(entry) - 1, *range(2, len(entry) - 1), 1, 0]")]),
    Wrong("the end byte is stored last", "pass", [(STORES, "[*range(2, len(entry) - 1), 1, 0, len(entry) - 1]")]),
    Wrong("the kind is stored after the length", "pass", [(STORES, "[*range(4, len(entry)), 1, 0, 2, 3]")]),
    Wrong("the end byte, then the length, then the body is stored", "fail",
          [(STORES, "[len(entry) - 1, 1, 0, *range(2, len(entry) - 1)]")]),
    Wrong("the end byte is not stored", "fail", [(STORES, "[*range(2, len(entry) - 1), 1, 0]")]),
    # The bytes of an entry.
    Wrong("numbers have the high byte first", "pass",
          [('number.to_bytes(2, "little")', 'number.to_bytes(2, "big")'),
           ('image[offset:offset + 2], "little")', 'image[offset:offset + 2], "big")')]),
    Wrong("the length is that of the body", "pass",
          [("two_bytes(whole_len(len(body)))", "two_bytes(len(body))"),
           ("number_at(image, offset) != end - offset", "number_at(image, offset) != BODY_SIZES[kind]")]),
    Wrong("the length that is stored is that of the body", "fail",
          [("two_bytes(whole_len(len(body)))", "two_bytes(len(body))")]),
    Wrong("an entry ends with 0x5A", "pass", [("END = 0xA5", "END = 0x5A")]),
    # What counts as an entry.
    Wrong("the end byte is not checked", "pass", [("image[end - 1] != END", "False")]),
    Wrong("the length is not checked", "fail", [("number_at(image, offset) != end - offset", "False")]),
    Wrong("the high length byte is not checked", "pass",
          [("number_at(image, offset) != end - offset", "image[offset:offset + 1] != bytes([end - offset])")]),
    Wrong("the high byte of the kind is not checked", "pass",
          [("kind = number_at(image, offset + 2)", "kind = number_at(image, offset + 2) % 256")]),
    Wrong("the kind is not checked, a length that fits some kind is enough", "pass",
          [("kind = number_at(image, offset + 2)", "kind = {9: 1, 53: 2}.get(number_at(image, offset), 0)")]),
    Wrong("a length that is not stored yet is taken for whole", "fail",
          [("number_at(image, offset) != end - offset", "number_at(image, offset) not in (end - offset, 0xFFFF)")]),
    Wrong("entries are looked for past a torn one", "fail",
          [("    entries, offset = [], 0\n", "    entries, offset = [], 0\n    while offset < len(image) and "
            "entry_at(image, offset) is None:\n        offset += 1\n")]),
    Wrong("only the first entry is found", "fail",
          [("(entry := entry_at(image, offset)) is not None", "not entries and (entry := entry_at(image, offset))")]),
    # Where an append goes, and what it refuses.
    Wrong("an append goes to the end of the image", "fail",
          [(ROOM, ROOM + "    offset = len(image) - whole_len(len(body))\n")]),
    Wrong("an append goes after the torn tail", "pass",
          [(ROOM, ROOM.replace("find(image).next_offset", "sum(find(image)[1:])"))]),
    Wrong("an append needs a byte more than its entry has", "pass",
          [(ROOM, ROOM.replace("> len(image)", ">= len(image)"))]),
    Wrong("an append asks for the body's room alone", "fail",
          [("offset + whole_len(len(body)) >", "offset + len(body) >")]),
    Wrong("16 comes before 18", "pass", [(WHICH + ROOM, ROOM + WHICH)]),
    Wrong("18 comes before 7", "pass", [(HOW_LONG + WHICH, WHICH + HOW_LONG)]),
    Wrong("the longest image is refused", "pass",
          [(HOW_LONG + "    entries", HOW_LONG.replace(">", ">=") + "    entries")]),
    Wrong("an image that is too long is not refused", "pass",
          [(HOW_LONG + WHICH, WHICH), (HOW_LONG + "    entries", "    entries")]),
    # What a recovery erases, and in which order.
    Wrong("a recovery erases forward", "pass", [(ERASED, "next_offset + index")]),
    Wrong("a recovery erases nothing", "fail", [(RECOVERED, "range(0)")]),
    Wrong("a recovery leaves the last torn byte", "fail", [(TORN, f"max({TORN} - 1, 0)")]),
    Wrong("a recovery leaves the first torn byte", "pass", [(RECOVERED, "range(found.torn_len - 1)")]),
    Wrong("a recovery erases up to the image's end", "pass", [(TORN, "len(tail)")]),
    Wrong("a torn tail ends at its first blank byte", "fail", [(TORN, "len(tail.split(bytes([BLANK]))[0])")]),
    Wrong("a recovery erases with 0x00", "fail", [(f"({ERASED}, BLANK)", f"({ERASED}, 0x00)")]),
    Wrong("a store past the longest image is given", "pass", [("if offset < LONGEST_IMAGE else None", "")]),
    # The body of a read.
    Wrong("untrusted and encrypted are exchanged", "pass",
          [("bytes(numbers)", "bytes(numbers[:2] + [numbers[3], numbers[2]])")]),
    Wrong("a count of 256 is written as 0", "pass",
          [(FITS, FITS.replace("255", "256")), ("bytes(numbers)", "bytes(number % 256 for number in numbers)")]),
    Wrong("16 comes before 18 for a body", "pass", [(FITS + HAS_ROOM, HAS_ROOM + FITS)]),
]


def program_of(wrong):
    """The wrong program. Each edit has to meet the model's text exactly once."""
    with open(os.path.join(os.path.dirname(os.path.abspath(__file__)), "journal.py"), encoding="utf-8") as f:
        text = f.read()
    for old, new in wrong.edits:
        if text.count(old) != 1:
            raise ValueError(f"'{wrong.says}': the model has its text {text.count(old)} times: {old}")
        text = text.replace(old, new)
    program = types.ModuleType("journal_wrong_program")
    exec(compile(text, wrong.says, "exec"), program.__dict__)
    return program


def statements_of(program):
    """Whether a program passes the four statements, in images with room for one read, for two, and for a header."""
    try:
        for length in (17, 18, 54):
            Histories(program, length, READS[:2] + HEADERS[:2], 2).run()
    except StatementFails:
        return "fail"
    return "pass"


def faults(cases):
    """The wrong programs that no case finds, and those whose word about the statements is wrong."""
    found, right = [], {}
    for wrong in WRONG:
        program = program_of(wrong)
        for case in cases:
            if case not in right:
                right[case] = answer(journal, case)
            if answer(program, case) != right[case]:
                break
        else:
            found.append(f"no case finds this wrong program: {wrong.says}")
        if statements_of(program) != wrong.statements:
            found.append(f"this wrong program does not {wrong.statements} the statements: {wrong.says}")
    # Why the request promises nothing where an append comes between a cut and a recovery.
    entries = journal.find(bytes.fromhex(without_recovery(journal)[1])).entries
    if len(entries) != 2:
        found.append("an append without a recovery makes up no entry")
    return found


def summary():
    passing = sum(wrong.statements == "pass" for wrong in WRONG)
    return f"the cases find all {len(WRONG)} wrong programs; {passing} of them pass the request's statements"
