"""All short histories of a small image: the cases that they give, and a test of the model by request (v)'s statements.

A history starts with a blank image and consists of appends, recoveries and power cuts. A cut comes before the first
store of an append or a recovery, between two stores, or after the last. After a cut no append comes before a recovery
has run to its end. For each image reached, with the entries that were completed, these have to hold of the model:

1. It has exactly the entries that were completed, and the next append may start where they end. An entry is
   completed by the last store of its append. So nothing is lost, nothing is made up, and a torn tail is never shown.
2. A recovery that runs to its end leaves these entries, and blank bytes after them.
3. A second recovery changes nothing.
4. A recovery that is cut after any store has lost no entry, and the next one ends as the first would have: the image
   that it leaves is reached too, so 1 and 2 are tested on it.

The cases ask for the image after each single store, and for each store by itself: many wrong programs pass the
statements (tools/journal_wrong.py says which).
"""
from journal_cases import answer, shown

# Bodies that look like what stands around them: end bytes, blank bytes, the head of an entry, whole entries.
READS = [(1, bytes.fromhex(body)) for body in ("a5a5a5a5", "ffffffff", "09000100")]
WHOLE_READ = bytes.fromhex("0900010001020300a5")
HEADERS = [
    # Five reads and the first bytes of a header entry.
    (2, 5 * WHOLE_READ + bytes.fromhex("350002")),
    (2, bytes(48 * [0xFF])),
    # A read of nine bytes at the same offset ends where the first of these reads begins.
    (2, bytes(5 * [0xA5]) + 4 * WHOLE_READ + bytes(7 * [0xFF])),
]
# A kind that is not named and bodies of another size are refused in every image.
REFUSED = [(0, bytes(4)), (3, bytes(4)), (1, bytes(48)), (2, bytes(4)), (1, b"")]

# Two headers take 106 bytes.
LONGEST_TRIED = 108


class StatementFails(Exception):
    """A statement of the request that the model does not keep, on the image that the argument names."""


class Histories:
    """The histories of a blank image with at most `most` appends. Cases and the model's answers are lists."""

    def __init__(self, model, length, bodies, most):
        self.model, self.bodies, self.most = model, bodies, most
        self.blank = bytes(length * [model.BLANK])
        self.cases, self.answers, self.stores = [], [], 0
        self.images, self.plans = set(), set()
        # Each entry: an image, the entries that were completed, and whether an append may come next.
        self.reached, self.todo = set(), [(self.blank, (), True)]

    def run(self):
        """Goes on until every history was tried. The statements are tested of each; the cases of an image are asked
        once, however it was reached."""
        while self.todo:
            state = self.todo.pop()
            if state in self.reached:
                continue
            self.reached.add(state)
            image, completed, may_append = state
            self.find(image, completed)
            self.recover(image, completed)
            self.images.add(image)
            if may_append:
                self.append(image, completed)
        return self

    def ask(self, case):
        self.cases.append(case)
        self.answers.append(answer(self.model, case))

    def find(self, image, completed):
        """What is found, and statement 1."""
        if image not in self.images:
            self.ask(f"journal-find {shown(image)}")
        found = self.model.find(image)
        self.hold(found.entries == list(completed), 1, image)
        self.hold(found.next_offset == sum(self.model.whole_len(len(e.body)) for e in completed), 1, image)

    def recover(self, image, completed):
        """A recovery, cut after each store, and statements 2 and 3."""
        plan, found = self.model.recovery_plan(image), self.model.find(image)
        left = list(self.model.images_after_each(image, plan))
        if image not in self.images:
            self.cuts("journal-recover-cut", image, f"{found.next_offset} {found.torn_len}", left)
            self.each_store(f"journal-store-recovery {found.next_offset} {found.torn_len}", len(plan))
        self.todo += [(each, completed, False) for each in left]
        self.todo.append((left[-1], completed, True))
        entries = b"".join(self.model.entry_bytes(e.kind, e.body) for e in completed)
        self.hold(left[-1] == entries + self.blank[len(entries):], 2, image)
        self.hold(self.model.perform(left[-1], self.model.recovery_plan(left[-1])) == left[-1], 3, image)

    def append(self, image, completed):
        """An append of each body, cut after each store."""
        for kind, body in REFUSED:
            self.ask(f"journal-append {kind} {shown(body)} {shown(image)}")
        for kind, body in self.bodies:
            try:
                offset, plan = self.model.append_offset(image, kind, body), self.model.append_plan(image, kind, body)
            except self.model.Refused:
                self.ask(f"journal-append {kind} {shown(body)} {shown(image)}")
                continue
            if len(completed) == self.most:
                continue
            left = list(self.model.images_after_each(image, plan))
            self.cuts(f"journal-append-cut {kind} {shown(body)}", image, f"{offset} {len(plan)}", left)
            self.each_store(f"journal-store-append {offset} {kind} {shown(body)}", len(plan))
            after = (*completed, self.model.Entry(offset, kind, body))
            self.todo += [(each, completed, False) for each in left[:-1]]
            self.todo += [(left[-1], after, False), (left[-1], after, True)]

    def cuts(self, case, image, head, left):
        """The cases of an operation that is cut: after each store, and after more stores than there are."""
        before = shown(image)
        for cut, each in enumerate([*left, left[-1]]):
            self.cases.append(f"{case} {cut} {before}")
            self.answers.append(f"0 {head} {shown(each)}")
        self.stores += len(left) - 1

    def each_store(self, case, count):
        """Each store of a plan by itself, and one past the last. Many images have the same plan: it is asked once."""
        if case not in self.plans:
            self.plans.add(case)
            for index in range(count + 1):
                self.ask(f"{case} {index}")

    def hold(self, holds, statement, image):
        if not holds:
            raise StatementFails(f"statement {statement} fails for the image {shown(image)}")


def of_length(model, length):
    """The histories that are tried for a length: of at most three appends where only reads have room, else of two."""
    return Histories(model, length, READS + HEADERS, 3 if length < 53 else 2).run()
