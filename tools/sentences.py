"""Splits a document in Markdown into its sentences."""
import re

ABBREVIATIONS = {"no.", "e.g.", "i.e.", "etc.", "cf.", "vs."}
ITEM = re.compile(r"^(?:- |\d+\. )")
HEADING_IN_BOLD = re.compile(r"^\*\*[^*]+\*\* ")
STOP = re.compile(r"[.?!][\"')\]*`]*(?=\s+[A-Z0-9*\"`(])")


def sentences(text):
    """The sentences of a document, in order.

    A row of a table is one sentence: its cells, joined by ": ". A list item and a paragraph are split after a full
    stop that a capital, a digit, a star, a quote or a bracket follows, but not inside brackets or quotes, nor after
    an abbreviation or the number of an item. Headings and the heads of tables state nothing.
    """
    return [sentence for is_row, block in blocks(text) for sentence in ([block] if is_row else split_block(block))]


def blocks(text):
    """The rows, list items and paragraphs, in order: whether it is a row, and its text."""
    found, rows, is_going_on = [], 0, False
    for line in text.splitlines():
        bare = line.strip()
        rows = rows + 1 if bare.startswith("|") else 0
        if rows or not bare or bare.startswith("#"):
            if rows > 1 and not re.fullmatch(r"[|\-: ]+", bare):
                found.append((True, ": ".join(cell.strip() for cell in bare.strip("|").split("|"))))
            is_going_on = False
        elif is_going_on and not ITEM.match(line):
            found[-1] = (False, found[-1][1] + " " + bare)
        else:
            found.append((False, HEADING_IN_BOLD.sub("", ITEM.sub("", bare, count=1), count=1)))
            is_going_on = True
    return found


def split_block(block):
    """The sentences of a list item or a paragraph."""
    out, start = [], 0
    for stop in STOP.finditer(block):
        part = block[start : stop.end()].strip()
        if not is_unfinished(part):
            out.append(part)
            start = stop.end()
    rest = block[start:].strip()
    return out + [rest] if rest else out


def is_unfinished(part):
    """Whether no sentence ends here: an abbreviation, the number of an item, or inside brackets or quotes."""
    word = part.split()[-1].lstrip("(\"'*`").lower()
    is_number = re.fullmatch(r"\d+\.", part) is not None
    return word in ABBREVIATIONS or is_number or part.count("(") > part.count(")") or part.count('"') % 2 == 1
