"""A client's exchange of headers, and what it tells: RFC 5905, sections 7.3 and 8. The port writes the header of the
request and reads that of the response; the clock and the sum of four times are this program's own."""
import os
import socket
import time
from dataclasses import dataclass

from port import Header, Reading

HEADER = 48
# A mode, and the leap of a clock that is not set.
SERVER, UNSYNCHRONIZED = 4, 3
# Seconds from 1900, when era 0 began, to 1970.
SECONDS_TO_1970 = 2208988800
# Timestamps count units of 2^-32 s; an era has 2^64 of them.
UNITS_PER_SECOND = 2**32
UNITS_PER_ERA = 2**64


def check(holds, what):
    if not holds:
        raise SystemExit("interop: " + what)


def now_units():
    """The machine's clock as a timestamp."""
    seconds, nanoseconds = divmod(time.time_ns(), 10**9)
    return ((seconds + SECONDS_TO_1970) * UNITS_PER_SECOND + nanoseconds * UNITS_PER_SECOND // 10**9) % UNITS_PER_ERA


def difference_seconds(later_units, earlier_units):
    """Of two timestamps that are less than 68 years apart, whatever their era."""
    half = UNITS_PER_ERA // 2
    return ((later_units - earlier_units + half) % UNITS_PER_ERA - half) / UNITS_PER_SECOND


def request_header(version):
    """A request tells the server nothing about its clock: its transmit time is random, and comes back as the origin."""
    return Header(version=version, transmit_units_of_2pow_minus_32_s=int.from_bytes(os.urandom(8), "big"))


@dataclass
class Exchange:
    """A response, and the client's own clock when the request left and when the response came."""

    header: Header
    reading: Reading
    left_units: int
    came_units: int

    def offset_seconds(self):
        """How far the server's clock is ahead."""
        there = difference_seconds(self.header.receive_units_of_2pow_minus_32_s, self.left_units)
        back = difference_seconds(self.header.transmit_units_of_2pow_minus_32_s, self.came_units)
        return (there + back) / 2

    def told(self):
        return f"offset {self.offset_seconds():+.6f} s, root distance {self.reading.distance_seconds:.6f} s"


def sent(address, data):
    """The response, and the times at which the request left and the response came."""
    with socket.socket(socket.AF_INET, socket.SOCK_DGRAM) as s:
        s.settimeout(5)
        left_units = now_units()
        s.sendto(data, address)
        response = s.recv(65535)
        return response, left_units, now_units()


def answered(port, asked, response, left_units, came_units):
    """The exchange of a request's header and of a response, which has to belong to it."""
    header = port.header_read(response)
    check((header.version, header.mode) == (asked.version, SERVER), "this is no response of the version asked for")
    check(
        header.origin_units_of_2pow_minus_32_s == asked.transmit_units_of_2pow_minus_32_s,
        "the response belongs to another request",
    )
    check(port.header_write(header) == response[:HEADER], "a header that was read is written otherwise")
    return Exchange(header, port.reading(header), left_units, came_units)


def exchange(port, address, version):
    """Both packets, which are headers alone, and the exchange."""
    asked = request_header(version)
    data = port.header_write(asked)
    response, left_units, came_units = sent(address, data)
    check(len(response) == HEADER, f"the response to a header has {len(response)} bytes")
    return data, response, answered(port, asked, response, left_units, came_units)


def wait_until_synchronized(port, address):
    """Asks a server until its leap says that its clock is set."""
    for _ in range(100):
        _, _, headers = exchange(port, address, 4)
        if headers.header.leap_bits != UNSYNCHRONIZED:
            return
        time.sleep(0.1)
    check(False, "chronyd does not follow the other")
