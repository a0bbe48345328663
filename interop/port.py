"""The port's library for a host, called from Python (crates/pump; the functions are those of its C header)."""
import ctypes
from ctypes import Structure, c_double, c_int8, c_size_t, c_uint8, c_uint16, c_uint32, c_uint64
from dataclasses import dataclass

# The verdict of a result: docs/RULES.md, 8.1.
NOT_OPENED, OPENED = 1, 2
# The interface that this module is for, and how many entries a table has in it.
INTERFACE, TABLE = 2, 128


class Refusal(Exception):
    """A write, or a MAC or header to read, that was refused, with the number of the rules."""


class OtherInterface(Exception):
    """A library of another interface, whose functions must not be called."""


@dataclass
class Field:
    """A field to write: docs/DECISIONS.md, 30."""

    kind: int
    number: int
    data: bytes
    length: int

    @classmethod
    def identifier(cls, data):
        return cls(1, 0, data, len(data))

    @classmethod
    def cookie(cls, data):
        return cls(2, 0, data, len(data))

    @classmethod
    def placeholder(cls, length):
        return cls(3, 0, b"", length)


@dataclass
class Seal:
    """A sealed field that the survey names, and all bytes before it."""

    associated: bytes
    nonce: bytes
    ciphertext: bytes


@dataclass
class Answer:
    """What reading tells: the number, type and message of each field by its trust, and the bytes after the fields."""

    number: int
    authenticated: list
    untrusted: list
    encrypted: list
    remainder: bytes


@dataclass
class Header:
    """The header of NTPv3 and NTPv4: docs/RULES.md, 23. A request has the values that stand here."""

    leap_bits: int = 0
    version: int = 4
    mode: int = 3
    stratum: int = 0
    poll_byte: int = 0
    precision_log2_seconds: int = 0
    root_delay_units_of_2pow_minus_16_s: int = 0
    root_dispersion_units_of_2pow_minus_16_s: int = 0
    reference_id: int = 0
    reference_units_of_2pow_minus_32_s: int = 0
    origin_units_of_2pow_minus_32_s: int = 0
    receive_units_of_2pow_minus_32_s: int = 0
    transmit_units_of_2pow_minus_32_s: int = 0


@dataclass
class Reading:
    """A header's times in seconds: docs/RULES.md, 17."""

    delay_seconds: float
    dispersion_seconds: float
    distance_seconds: float


class _Header(Structure):
    """The parts of a header in the order of the C struct, which is also that of `Header`."""

    _fields_ = list(
        zip(
            Header.__dataclass_fields__,
            [c_uint8] * 5 + [c_int8] + [c_uint32] * 3 + [c_uint64] * 4,
            strict=True,
        )
    )


class _HeaderRead(Structure):
    _fields_ = [("number", c_size_t), ("version_seen", c_size_t), ("header", _Header)]


class _Reading(Structure):
    _fields_ = [(name, c_double) for name in Reading.__dataclass_fields__]


class _Read(Structure):
    _fields_ = [
        (name, c_size_t)
        for name in (
            "number",
            "field_offset",
            "authenticated_count",
            "untrusted_count",
            "encrypted_count",
            "remainder_len",
            "has_cookie",
            "cookie_seal",
        )
    ]


class _Survey(Structure):
    _fields_ = [(name, c_size_t) for name in ("number", "field_offset", "seal_count")]


class _Seal(Structure):
    _fields_ = [
        (name, c_size_t)
        for name in (
            "number",
            "nonce_offset",
            "nonce_len",
            "ciphertext_offset",
            "ciphertext_len",
            "associated_data_len",
        )
    ]


class _Field(Structure):
    """A field of any of the three lists; each has a function of its own."""

    _fields_ = [
        (name, c_size_t)
        for name in (
            "number",
            "kind",
            "type_id",
            "field_offset",
            "wire_length",
            "message_offset",
            "message_len",
        )
    ]


class _StageOne(Structure):
    _fields_ = [
        (name, c_size_t)
        for name in ("number", "output_len", "plaintext_len", "associated_data_len", "owes_seal")
    ]


class _Length(Structure):
    _fields_ = [(name, c_size_t) for name in ("number", "len")]


class _Mac(Structure):
    _fields_ = [(name, c_size_t) for name in ("number", "keyid", "body_len")]


def _lent(kind, values):
    """A lent slice: the address and the length of an array."""
    array = (kind * max(1, len(values)))(*values)
    return [array, c_size_t(len(values))]


def _writable(buffer):
    """A bytearray, lent to be written."""
    return [(c_uint8 * len(buffer)).from_buffer(buffer), c_size_t(len(buffer))]


def _described(fields):
    """The lent slices that describe fields, and their data."""
    starts, data = [], b""
    for field in fields:
        starts.append(len(data))
        data += field.data
    return (
        _lent(c_uint8, [field.kind for field in fields])
        + _lent(c_uint16, [field.number for field in fields])
        + _lent(c_size_t, starts)
        + _lent(c_size_t, [field.length for field in fields])
        + _lent(c_uint8, data)
    )


class Port:
    def __init__(self, library):
        self.library = ctypes.CDLL(library)
        # A library of another interface has no function of this name. None of its functions is called then.
        if not hasattr(self.library, f"ntp_interface_{INTERFACE}"):
            raise OtherInterface(f"{library} is no library of interface {INTERFACE}")
        self.library.ntp_raw_stage_two.restype = _Length
        self.library.ntp_raw_mac_write.restype = _Length
        self.library.ntp_raw_header_v3v4_write.restype = _Length

    def _row(self, function, kind, *arguments):
        """Calls a function that returns a struct of more than 16 bytes, which goes through a first pointer."""
        row = kind()
        call = getattr(self.library, function)
        call.restype = None
        call(ctypes.byref(row), *arguments)
        return row

    def header_write(self, header):
        """The bytes of a header."""
        out = bytearray(48)
        leap, version, mode, stratum, poll, precision, delay, dispersion, *rest = (
            kind(getattr(header, name)) for name, kind in _Header._fields_
        )
        parts = [leap, version, mode, poll, delay, dispersion, stratum, precision, *rest]
        told = self.library.ntp_raw_header_v3v4_write(*parts, *_writable(out), c_size_t(0))
        if told.number:
            raise Refusal(told.number)
        return bytes(out[: told.len])

    def header_read(self, packet):
        """The header in the first bytes of a packet."""
        told = self._row("ntp_raw_header_v3v4_read", _HeaderRead, *_lent(c_uint8, packet))
        if told.number:
            raise Refusal(told.number)
        return Header(*(getattr(told.header, name) for name, _ in _Header._fields_))

    def reading(self, header):
        """What a header's root delay and root dispersion are in seconds."""
        counts = header.root_delay_units_of_2pow_minus_16_s, header.root_dispersion_units_of_2pow_minus_16_s
        reading = self._row("ntp_raw_reading_v3v4", _Reading, *map(c_uint32, counts))
        return Reading(*(getattr(reading, name) for name, _ in _Reading._fields_))

    def stage_one(self, out, at, version, authenticated, encrypted):
        """What stage two goes on with, and the plaintext to be sealed over the first bytes of the output."""
        plain = bytearray(65535)
        told = self._row(
            "ntp_raw_stage_one",
            _StageOne,
            *_writable(out),
            c_size_t(at),
            *_writable(plain),
            *_described(authenticated + encrypted),
            c_uint8(version),
            c_uint8(1),
            c_size_t(len(authenticated)),
            c_size_t(len(encrypted)),
        )
        if told.number:
            raise Refusal(told.number)
        return told, bytes(plain[: told.plaintext_len])

    def stage_two(self, out, told, version, nonce, ciphertext, untrusted):
        """How many bytes the packet has."""
        rest = self.library.ntp_raw_stage_two(
            *_writable(out),
            c_size_t(told.associated_data_len),
            c_size_t(told.owes_seal),
            *_lent(c_uint8, nonce),
            *_lent(c_uint8, ciphertext),
            *_described(untrusted),
            c_uint8(version),
            c_size_t(len(untrusted)),
        )
        if rest.number:
            raise Refusal(rest.number)
        return told.associated_data_len + rest.len

    def survey(self, packet, header, version):
        """The sealed fields up to the first fault."""
        table = (c_uint64 * TABLE)()
        lent = [*_lent(c_uint8, packet), c_size_t(header), c_uint8(version), ctypes.byref(table)]
        told = self._row(f"ntp_raw_survey_{TABLE}", _Survey, *lent)
        seals = []
        for index in range(told.seal_count):
            place = [c_size_t(len(packet)), ctypes.byref(table), c_size_t(told.seal_count), c_size_t(index)]
            seal = self._row(f"ntp_raw_seal_{TABLE}", _Seal, *place)
            if seal.number:
                raise Refusal(seal.number)
            seals.append(
                Seal(
                    packet[: seal.associated_data_len],
                    packet[seal.nonce_offset : seal.nonce_offset + seal.nonce_len],
                    packet[seal.ciphertext_offset : seal.ciphertext_offset + seal.ciphertext_len],
                )
            )
        return seals

    def read(self, packet, header, version, results, plain):
        """Reads a packet; each of the results is a verdict and the place and length of a plaintext."""
        outer, inner = (c_uint64 * TABLE)(), (c_uint64 * TABLE)()
        starts = [start for _, start, _ in results]
        told = self._row(
            f"ntp_raw_read_{TABLE}",
            _Read,
            *_lent(c_uint8, packet),
            c_size_t(header),
            c_uint8(version),
            *_lent(c_uint8, [verdict for verdict, _, _ in results]),
            *_lent(c_size_t, starts),
            *_lent(c_size_t, [length for _, _, length in results]),
            *_lent(c_uint8, plain),
            ctypes.byref(outer),
            c_size_t(TABLE),
            ctypes.byref(inner),
            c_size_t(TABLE),
        )
        of_packet = [c_size_t(len(packet)), c_uint8(version), ctypes.byref(outer)]
        counts = [c_size_t(told.authenticated_count), c_size_t(told.untrusted_count)]
        of_plain = [c_size_t(len(plain)), *_lent(c_size_t, starts), c_uint8(version), ctypes.byref(inner)]
        encrypted = [*of_plain, c_size_t(told.encrypted_count)]
        return Answer(
            told.number,
            self._fields("authenticated", told.authenticated_count, packet, [*of_packet, counts[0]]),
            self._fields("untrusted", told.untrusted_count, packet, [*of_packet, *counts]),
            self._fields("encrypted", told.encrypted_count, plain, encrypted),
            packet[len(packet) - told.remainder_len :],
        )

    def mac_read(self, data):
        """Key id and body."""
        mac = self._row("ntp_raw_mac_read", _Mac, *_lent(c_uint8, data))
        if mac.number:
            raise Refusal(mac.number)
        return mac.keyid, data[len(data) - mac.body_len :]

    def mac_write(self, out, at, keyid, body):
        """How many bytes the MAC has."""
        told = self.library.ntp_raw_mac_write(c_uint32(keyid), *_lent(c_uint8, body), *_writable(out), c_size_t(at))
        if told.number:
            raise Refusal(told.number)
        return told.len

    def _fields(self, trust, count, source, arguments):
        """Type and message of each field of a list, whose bytes lie in the packet or in the plaintexts."""
        fields = []
        for index in range(count):
            field = self._row(f"ntp_raw_{trust}_field_{TABLE}", _Field, *arguments, c_size_t(index))
            if field.number:
                raise Refusal(field.number)
            fields.append((field.type_id, source[field.message_offset : field.message_offset + field.message_len]))
        return fields
