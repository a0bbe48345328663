"""NTS key establishment (RFC 8915, section 4), the client's side."""
import socket
import struct

from OpenSSL import SSL

END, NEXT_PROTOCOL, ERROR, WARNING, ALGORITHM, COOKIE, SERVER, PORT = range(8)
CRITICAL = 0x8000
NTPV4 = 0
AES_SIV_CMAC_256 = 15
KEY_LENGTH = 32
LABEL = b"EXPORTER-network-time-security"


class Refused(Exception):
    """The server's answer is none that keys can be taken from."""


def _record(kind, body, critical=True):
    return struct.pack("!HH", kind | (CRITICAL if critical else 0), len(body)) + body


def _records(data):
    at = 0
    while at + 4 <= len(data):
        kind, length = struct.unpack_from("!HH", data, at)
        yield kind & ~CRITICAL, data[at + 4 : at + 4 + length]
        at += 4 + length


def _ends(data):
    return any(kind == END for kind, _ in _records(data))


def _exchange(connection):
    connection.sendall(
        _record(NEXT_PROTOCOL, struct.pack("!H", NTPV4))
        + _record(ALGORITHM, struct.pack("!H", AES_SIV_CMAC_256))
        + _record(END, b"")
    )
    data = b""
    while not _ends(data):
        data += connection.recv(4096)
    return data


class Keys:
    """Both keys, and the cookies that the server handed out."""

    def __init__(self, connection, answer):
        self.cookies = []
        for kind, body in _records(answer):
            if kind in (ERROR, WARNING):
                raise Refused(f"record {kind}: {body.hex()}")
            if kind == ALGORITHM and body != struct.pack("!H", AES_SIV_CMAC_256):
                raise Refused(f"algorithm {body.hex()}")
            if kind == COOKIE:
                self.cookies.append(body)
        self.to_server = self._exported(connection, 0)
        self.to_client = self._exported(connection, 1)

    @staticmethod
    def _exported(connection, direction):
        context = struct.pack("!HHB", NTPV4, AES_SIV_CMAC_256, direction)
        return connection.export_keying_material(LABEL, KEY_LENGTH, context)


def keys_from(host, port, certificate):
    """The keys that a server at an address, with this certificate, agrees on."""
    context = SSL.Context(SSL.TLS_CLIENT_METHOD)
    context.set_min_proto_version(SSL.TLS1_3_VERSION)
    context.load_verify_locations(certificate)
    context.set_verify(SSL.VERIFY_PEER)
    context.set_alpn_protos([b"ntske/1"])
    with socket.create_connection((host, port), timeout=10) as plain:
        plain.setblocking(True)
        connection = SSL.Connection(context, plain)
        connection.set_tlsext_host_name(b"localhost")
        connection.set_connect_state()
        connection.do_handshake()
        if connection.get_alpn_proto_negotiated() != b"ntske/1":
            raise Refused("the server speaks no ntske/1")
        return Keys(connection, _exchange(connection))
