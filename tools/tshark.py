"""What tshark shows of a header of NTPv3 or NTPv4: the stored list, and the same from the lines that inspect prints."""
import os
import re
from datetime import datetime

import shown

LIST = os.path.join(os.path.dirname(os.path.dirname(os.path.abspath(__file__))), "crates", "inspect", "tshark.txt")
FIELDS = (
    "ntp.flags.li", "ntp.flags.vn", "ntp.flags.mode", "ntp.stratum", "ntp.ppoll", "ntp.precision", "ntp.rootdelay",
    "ntp.rootdispersion", "ntp.refid", "ntp.reftime", "ntp.org", "ntp.rec", "ntp.xmt",
)
LEAPS = (
    "no warning", "last minute of the day has 61 seconds", "last minute of the day has 59 seconds",
    "unknown (clock unsynchronized)",
)
STRATA = {
    "unspecified, or a kiss code": "unspecified or invalid", "primary server": "primary reference",
    "secondary server": "secondary reference",
}
# Of the sources that tshark knows, the one that is in the list.
SOURCES = {"GPS": "Global Position System"}
# It shows the first nanosecond after these as NULL, as if it were no time.
NULL = (datetime(1970, 1, 1), datetime(2036, 2, 7, 6, 28, 16))


def stored():
    """The name and the bytes of each header of the list, with the fields that tshark shows of it."""
    headers = []
    with open(LIST, encoding="ascii") as f:
        for line in f.read().splitlines():
            if line.startswith("  "):
                headers[-1][2].append(tuple(line.split(None, 2)))
            elif not line.startswith("#"):
                name, header = line.split()
                headers.append((name, bytes.fromhex(header), []))
    return headers


def poll(value):
    """From 2^4 to 2^17 s; it shows any other as invalid."""
    log2 = int(re.match(r"2\^(-?\d+) s", value)[1])
    text = f"{log2} ({2**log2} seconds)" if 4 <= log2 <= 17 else f"invalid ({log2 % 256})"
    return f"{log2 % 256:02x}", f"Peer Polling Interval: {text}"


def precision(value):
    """With six places."""
    log2 = int(re.match(r"2\^(-?\d+) s", value)[1])
    return f"{log2 % 256:02x}", f"Peer Clock Precision: {2.0**log2:.6f} seconds"


def time(name, value):
    """With six places, where inspect shows nine."""
    seconds, count = re.fullmatch(r"(\S+) s \((\d+) of 2\^-16 s\)", value).groups()
    return f"{int(count):08x}", f"{name}: {float(seconds):.6f} seconds"


def reference_id(stratum, value):
    """It calls a kiss code a source too, and shows an address from stratum 16 on, where inspect says nothing. Bytes that
    are no letters are a source to it as well, as those of chronyd's local clock."""
    four, letters, address = re.fullmatch(r'0x(\w+)(?: \((?:.* "(.*)"|([\d.]+))\))?', value).groups()
    if letters:
        text = SOURCES.get(letters, f"Unidentified reference source '{letters}'")
    elif stratum > 15:
        text = ".".join(str(byte) for byte in bytes.fromhex(four))
    elif stratum < 2 and int(four, 16):
        shown_bytes = (chr(byte) if 32 <= byte < 127 else f"\\x{byte:x}" for byte in bytes.fromhex(four))
        text = f"Unidentified reference source '{''.join(shown_bytes)}'"
    else:
        text = address or "NULL"
    return four, f"Reference ID: {text}"


def date(name, value):
    if value == "not set":
        return "0" * 16, f"{name}: NULL"
    second, places, count = re.fullmatch(r"(.*)\.(\d{9}) UTC, if in era [01] \(0x(\w+)\)", value).groups()
    second = datetime.strptime(second, "%Y-%m-%d %H:%M:%S")
    if second in NULL and int(places) == 0:
        return count, f"{name}: NULL"
    return count, f"{name}: {second:%b} {second.day:2}, {second:%Y %H:%M:%S}.{places} UTC"


def from_inspect(lines):
    """The fields that tshark shows of a header, from the lines that inspect prints for it."""
    by_name = {line[:19].strip(): line[19:] for line in lines}
    leap, mode = shown.LEAPS.index(by_name["leap"]), shown.MODES.index(by_name["mode"])
    version = by_name["header"][4]
    stratum, word = re.fullmatch(r"(\d+) \((.*)\)", by_name["stratum"]).groups()
    values_and_texts = (
        (str(leap), f"Leap Indicator: {LEAPS[leap]} ({leap})"),
        (version, f"Version number: NTP Version {version} ({version})"),
        (str(mode), f"Mode: {shown.MODES[mode]} ({mode})"),
        (f"{int(stratum):02x}", f"Peer Clock Stratum: {STRATA.get(word, word)} ({stratum})"),
        poll(by_name["poll"]),
        precision(by_name["precision"]),
        time("Root Delay", by_name["root delay"]),
        time("Root Dispersion", by_name["root dispersion"]),
        reference_id(int(stratum), by_name["reference id"]),
        date("Reference Timestamp", by_name["reference time"]),
        date("Origin Timestamp", by_name["origin time"]),
        date("Receive Timestamp", by_name["receive time"]),
        date("Transmit Timestamp", by_name["transmit time"]),
    )
    return [(name, *pair) for name, pair in zip(FIELDS, values_and_texts, strict=True)]
