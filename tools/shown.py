"""What inspect shows of figures and of headers, computed from the bytes with Python's own dates and fractions; and
headers of NTPv3 and NTPv4, made from their figures."""
import struct
from datetime import datetime, timedelta
from fractions import Fraction

OLDER = struct.Struct(">4B2I4s4Q")
NEWER = struct.Struct(">4B2I2BH4Q")
ERA = 2**32
EPOCH = datetime(1900, 1, 1)
# The first and the last second of both eras' dates, and seconds around which a calendar may be wrong.
SECONDS = (
    datetime(1968, 1, 20, 3, 14, 8), datetime(1968, 2, 29, 12), datetime(1969, 12, 31, 23, 59, 59), datetime(1970, 1, 1),
    datetime(1999, 12, 31, 23, 59, 59), datetime(2000, 2, 29), datetime(2000, 3, 1), datetime(2036, 2, 7, 6, 28, 15),
    datetime(2036, 2, 7, 6, 28, 16), datetime(2036, 2, 29, 23, 59, 59), datetime(2100, 2, 28, 23, 59, 59),
    datetime(2100, 3, 1), datetime(2100, 12, 31, 23, 59, 59), datetime(2101, 1, 1), datetime(2104, 2, 26, 9, 42, 23),
)
LEAPS = (
    "no warning", "the last minute of the day has 61 seconds", "the last minute of the day has 59 seconds",
    "unsynchronized",
)
MODES = (
    "reserved", "symmetric active", "symmetric passive", "client", "server", "broadcast", "NTP control message",
    "reserved for private use",
)
TIMESCALES = ("UTC", "TAI", "UT1", "UTC with smeared leap seconds")
STRATA = ("unspecified, or a kiss code", "primary server") + ("secondary server",) * 14 + ("unsynchronized",)


def older_header(
    leap=0, version=4, mode=4, stratum=2, poll=6, precision=0xE9, delay=0, dispersion=0,
    reference_id=b"\x7f\x7f\x01\x01", times=(0, 0, 0, 0),
):
    """A header of NTPv3 or NTPv4. The times are reference, origin, receive and transmit time."""
    first = leap * 64 + version * 8 + mode
    return OLDER.pack(first, stratum, poll, precision, delay, dispersion, reference_id, *times)


def timestamp(date, fraction=0):
    """The timestamp of a second in UTC and a count of 2^-32 s. Its era is lost."""
    return int((date - EPOCH).total_seconds()) % ERA * ERA + fraction


def named(name, value):
    return f"{name:19}{value}"


def counted(count):
    return "1 byte" if count == 1 else f"{count} bytes"


def rounded(number):
    return (number + Fraction(1, 2)).__floor__()


def power(byte):
    """A power of two of a second."""
    log2 = byte - 256 if byte >= 128 else byte
    if log2 >= 32:
        return f"2^{log2} s (more than 100 years)"
    if log2 >= 0:
        return f"2^{log2} s ({2**log2} s)"
    figure = rounded(Fraction(10**9, 2**-log2))
    for unit in ("ns", "us", "ms"):
        if figure < 10000:
            break
        figure = rounded(Fraction(figure, 1000))
    return f"2^{log2} s ({f'{figure} {unit}' if log2 > -30 else 'less than 1 ns'})"


def seconds(number):
    billionths = rounded(number * 10**9)
    return f"{billionths // 10**9}.{billionths % 10**9:09} s"


def time(count, scale):
    """A count of 2^-scale s."""
    return f"{seconds(Fraction(count, 2**scale))} ({count} of 2^-{scale} s)"


def distance(delay, dispersion, scale):
    return seconds(Fraction(delay + 2 * dispersion, 2 ** (scale + 1)))


def stratum_shown(stratum):
    return f"{stratum} ({STRATA[stratum] if stratum < len(STRATA) else 'reserved'})"


def reference_id_shown(stratum, four):
    letters = four.rstrip(b"\0")
    if 2 <= stratum <= 15:
        return f"0x{four.hex()} ({'.'.join(str(byte) for byte in four)})"
    if stratum > 15 or not letters or any(not 32 <= byte < 127 for byte in letters):
        return f"0x{four.hex()}"
    quoted = "".join(f"\\x{byte:02x}" if byte in b'"\\' else chr(byte) for byte in letters)
    return f'0x{four.hex()} ({("kiss code", "source")[stratum]} "{quoted}")'


def date(count):
    """A timestamp as a date, of era 0 if its highest bit is set and else of era 1. The fraction is cut to nine places."""
    if count == 0:
        return "not set"
    whole, fraction = divmod(count, ERA)
    era = 0 if whole >= ERA // 2 else 1
    second = EPOCH + timedelta(seconds=whole + era * ERA)
    return f"{second:%Y-%m-%d %H:%M:%S}.{fraction * 10**9 // ERA:09} UTC, if in era {era} (0x{count:016x})"


def older_lines(packet, at=0):
    """The lines of the header of NTPv3 or NTPv4 that a packet begins with, or that stands at an offset of an image."""
    first, stratum, poll, precision, delay, dispersion, reference_id, *times = OLDER.unpack(packet[:48])
    figures = (
        ("leap", LEAPS[first // 64]),
        ("mode", MODES[first % 8]),
        ("stratum", stratum_shown(stratum)),
        ("poll", power(poll)),
        ("precision", power(precision)),
        ("root delay", time(delay, 16)),
        ("root dispersion", time(dispersion, 16)),
        ("root distance", distance(delay, dispersion, 16)),
        ("reference id", reference_id_shown(stratum, reference_id)),
        *zip(("reference time", "origin time", "receive time", "transmit time"), map(date, times)),
    )
    title = named("header", f"NTPv{first // 8 % 8}, 48 bytes at {at}")
    return [title] + [named("  " + name, value) for name, value in figures]


def newer_leap(bits, is_synchronized):
    """The flag decides whether the clock is synchronized, whatever the leap says."""
    if not is_synchronized:
        return "unsynchronized"
    return "unknown" if bits == 3 else LEAPS[bits]


def newer_lines(header, at=0):
    """The lines of a header of NTPv5 that stands at an offset."""
    first, stratum, poll, precision, delay, dispersion, timescale, era, flags, *numbers = NEWER.unpack(header)
    figures = (
        ("leap", newer_leap(first // 64, flags & 1)),
        ("mode", {3: "request", 4: "response"}[first % 8]),
        ("stratum", stratum),
        ("poll", power(poll)),
        ("precision", power(precision)),
        ("root delay", time(delay, 28)),
        ("root dispersion", time(dispersion, 28)),
        ("root distance", distance(delay, dispersion, 28)),
        ("timescale", TIMESCALES[timescale]),
        ("era", era),
        *((name, "yes" if flags & bit else "no") for name, bit in (("synchronized", 1), ("interleaved", 2), ("authnak", 4))),
        *zip(("server cookie", "client cookie", "receive time", "transmit time"), (f"0x{number:016x}" for number in numbers)),
    )
    return [named("header", f"NTPv5, 48 bytes at {at}")] + [named("  " + name, value) for name, value in figures]


def remainder_lines(rest):
    """The lines of what follows a header and its fields, and of the MAC that it may be."""
    more = ".." if len(rest) > 32 else ""
    lines = [named("remainder", f"{counted(len(rest))} at 48" + (f": {rest[:32].hex()}{more}" if rest else ""))]
    if len(rest) in (4, 20, 24):
        lines += [named("  MAC key id", int.from_bytes(rest[:4], "big"))]
        lines += [named("  MAC body", counted(len(rest) - 4) + (f": {rest[4:].hex()}" if rest[4:] else ""))]
    elif rest:
        lines += [named("  MAC", "none: a MAC has 4, 20 or 24 bytes")]
    return lines


def v3_lines(packet):
    """All lines of a packet of NTPv3 that is given raw."""
    verdict = "accepted (0): only the header was read, as NTPv3 has no fields"
    first = [verdict, "", named("packet", f"{counted(len(packet))}, given raw"), named("version", 3)]
    return first + [""] + older_lines(packet) + [""] + remainder_lines(packet[48:])
