"""Cases of the journal as lines (docs/REPLAY.md), and the answer that a model gives to each.

The model is an argument: tools/journal.py itself, or one of the wrong programs of tools/journal_wrong.py.
"""
LARGEST = 2**64 - 1


def shown(data):
    return data.hex() or "-"


def given(word):
    return b"" if word == "-" else bytes.fromhex(word)


def found(model, image):
    try:
        at = model.find(given(image))
    except model.Refused as refusal:
        return str(refusal.args[0])
    entries = ",".join(f"{entry.kind}:{entry.offset}:{shown(entry.body)}" for entry in at.entries)
    return f"0 {at.next_offset} {at.torn_len} {entries or '-'}"


def append_cut(model, kind, body, cut, image):
    before, what = given(image), (int(kind), given(body))
    try:
        offset, plan = model.append_offset(before, *what), model.append_plan(before, *what)
    except model.Refused as refusal:
        return f"{refusal.args[0]} {image}"
    return f"0 {offset} {len(plan)} {shown(model.perform(before, plan[:int(cut)]))}"


def append(model, kind, body, image):
    return append_cut(model, kind, body, LARGEST, image)


def recover_cut(model, cut, image):
    before = given(image)
    try:
        at, plan = model.find(before), model.recovery_plan(before)
    except model.Refused as refusal:
        return f"{refusal.args[0]} {image}"
    return f"0 {at.next_offset} {at.torn_len} {shown(model.perform(before, plan[:int(cut)]))}"


def recover(model, image):
    return recover_cut(model, LARGEST, image)


def one_store(model, store):
    return str(model.NOT_NAMED) if store is None else f"0 {store[0]} {store[1]}"


def store_append(model, offset, kind, body, index):
    return one_store(model, model.append_store(int(offset), int(kind), given(body), int(index)))


def store_recovery(model, next_offset, torn, index):
    return one_store(model, model.recovery_store(int(next_offset), int(torn), int(index)))


def read_body(model, number, authenticated, untrusted, encrypted, at, out):
    numbers = [int(word) for word in (number, authenticated, untrusted, encrypted)]
    try:
        left = model.read_body(numbers, given(out), int(at))
    except model.Refused as refusal:
        return f"{refusal.args[0]} {out}"
    return f"0 {len(numbers)} {shown(left)}"


ANSWERS = {
    "journal-find": found,
    "journal-append": append,
    "journal-append-cut": append_cut,
    "journal-recover": recover,
    "journal-recover-cut": recover_cut,
    "journal-store-append": store_append,
    "journal-store-recovery": store_recovery,
    "journal-body": read_body,
}


def answer(model, case):
    """The answer to a case that has all its words."""
    name, *words = case.split(" ")
    return ANSWERS[name](model, *words)
