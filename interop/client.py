"""A client's exchange with an NTS server. The port writes and reads the header and every extension field; keys and
nonces are this program's own."""
import os

import aes_siv
from plain import HEADER, answered, check, request_header, sent
from port import NOT_OPENED, OPENED, Field

VERSION = 4
NONCE = 16


class Packet:
    """A packet that was sent or received, with the plaintext of its sealed field."""

    def __init__(self, data, plaintext):
        self.data = data
        self.plaintext = plaintext


class Request(Packet):
    """A request with a cookie, and with placeholders for further cookies."""

    def __init__(self, port, key, cookie, placeholders):
        self.identifier = os.urandom(32)
        self.nonce = os.urandom(NONCE)
        self.asked = request_header(VERSION)
        self.header = port.header_write(self.asked)
        self.fields = [Field.identifier(self.identifier), Field.cookie(cookie)]
        self.fields += [Field.placeholder(len(cookie))] * placeholders
        out = bytearray(self.header) + bytearray(4096)
        told, plaintext = port.stage_one(out, HEADER, VERSION, self.fields, [])
        associated = bytes(out[: told.associated_data_len])
        self.ciphertext = aes_siv.seal(key, self.nonce, associated, plaintext)
        end = port.stage_two(out, told, VERSION, self.nonce, self.ciphertext, [])
        super().__init__(bytes(out[:end]), plaintext)


def opened(port, key, packet):
    """The results for the sealed fields that the survey names, and the plaintexts in one buffer."""
    results, plain = [], b""
    for seal in port.survey(packet, HEADER, VERSION):
        try:
            text = aes_siv.open_sealed(key, seal.nonce, seal.associated, seal.ciphertext)
            results.append((OPENED, len(plain), len(text)))
            plain += text
        except aes_siv.NotAuthentic:
            results.append((NOT_OPENED, 0, 0))
    return results, plain


def read(port, key, packet):
    """The number that reading tells, and the fields of each trust."""
    results, plain = opened(port, key, packet)
    return port.read(packet, HEADER, VERSION, results, plain), plain


def exchange(port, keys, address, placeholders):
    """Sends a request with the first cookie, which is used up, and takes the new ones. Both packets, and what the
    headers tell."""
    request = Request(port, keys.to_server, keys.cookies.pop(0), placeholders)
    data, left_units, came_units = sent(address, request.data)
    answer, plain = read(port, keys.to_client, data)
    check(answer.number == 0, f"the response is refused with {answer.number}")
    headers = answered(port, request.asked, data, left_units, came_units)
    check(
        answer.authenticated == [(0x0104, request.identifier)] and answer.untrusted == [],
        "the identifier is not authenticated, or something else is there",
    )
    cookies = [message for kind, message in answer.encrypted if kind == 0x0204]
    check(len(cookies) == 1 + placeholders, f"{len(cookies)} cookies for {placeholders} placeholders")
    keys.cookies += cookies
    return request, Packet(data, plain), headers


def flipped(port, key, packet):
    """Flips each byte before the sealed field, and counts what is then told. A flipped length of a field may move
    the cut, so that another refusal comes first or no sealed field is left; nothing is authenticated then."""
    before = len(port.survey(packet, HEADER, VERSION)[0].associated)
    told = {}
    for at in range(before):
        damaged = bytearray(packet)
        damaged[at] ^= 0xFF
        answer, _ = read(port, key, bytes(damaged))
        told.setdefault(answer.number, []).append(at)
        check(answer.authenticated == [] and answer.encrypted == [], f"byte {at} flipped, and yet something is trusted")
    return before, told
