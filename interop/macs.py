"""A client's exchange with a server by a symmetric key: RFC 5905, section 7.3. The port writes the MAC of the request
and reads that of the response, and the headers; the key and the hash are this program's own."""
import hashlib
import os
import socket

from client import VERSION
from plain import HEADER, check, request_header
from port import Refusal

# The number of a wrong length.
INCORRECT_LENGTH = 1


def digest(name, key, header):
    return hashlib.new(name.lower(), key + header).digest()


def sent(address, data, timeout):
    """The server's response, or None if it does not answer."""
    with socket.socket(socket.AF_INET, socket.SOCK_DGRAM) as s:
        s.settimeout(timeout)
        s.sendto(data, address)
        try:
            return s.recv(65535)
        except TimeoutError:
            return None


def request(port, number, body_of):
    """The header of a request, and the request with a MAC that the port wrote."""
    header = port.header_write(request_header(VERSION))
    out = bytearray(header) + bytearray(64)
    return header, bytes(out[: HEADER + port.mac_write(out, HEADER, number, body_of(header))])


def mac_of(port, remainder):
    """Key id and body, or None for what is no MAC."""
    try:
        return port.mac_read(remainder)
    except Refusal as refusal:
        check(refusal.args == (INCORRECT_LENGTH,), f"{len(remainder)} bytes are refused with {refusal}")
        return None


def exchange(port, address, number, name, key):
    """Both packets. The MAC of the response is that of its first 48 bytes, by the same key."""
    header, data = request(port, number, lambda header: digest(name, key, header))
    response = sent(address, data, 5)
    check(response is not None, f"no response to a MAC of {len(data) - HEADER} bytes by {name}")
    check(
        port.header_read(response).origin_units_of_2pow_minus_32_s
        == port.header_read(header).transmit_units_of_2pow_minus_32_s,
        "the response belongs to another request",
    )
    answer = port.read(response, HEADER, VERSION, [], b"")
    check(answer.number == 0 and answer.untrusted == [], f"the response is refused with {answer.number}, or has fields")
    check(
        mac_of(port, answer.remainder) == (number, digest(name, key, response[:HEADER])),
        f"the remainder of {len(answer.remainder)} bytes is no MAC by {name}",
    )
    return data, response


def check_others(port, packet):
    """A trailer of every other length is read as the remainder, and is no MAC."""
    for count in set(range(25)) - {4, 20, 24}:
        whole = packet[:HEADER] + os.urandom(count)
        answer = port.read(whole, HEADER, VERSION, [], b"")
        check((answer.number, answer.remainder) == (0, whole[HEADER:]), f"a remainder of {count} bytes is not reported")
        check(mac_of(port, answer.remainder) is None, f"{count} bytes are read as a MAC")


def check_wrong_digest(port, address, number, name, key):
    """The server answers no wrong digest, and still answers a right one: so it checks what the port writes."""
    _, data = request(port, number, lambda header: bytes(len(digest(name, key, header))))
    check(sent(address, data, 1) is None, f"the server answered a wrong digest by {name}")
    exchange(port, address, number, name, key)
