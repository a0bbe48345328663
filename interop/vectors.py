"""The packets of an exchange as cases of docs/REPLAY.md, with ntp-proto's own answers."""
import os
import struct
import subprocess

HEAD = """\
# Packets that the port wrote for chronyd and read from it: interop/run --store wrote this list, on loopback, with
# AES-SIV-CMAC-256. For each exchange: the request as it is written from its fields, nonce and ciphertext; the survey of
# both packets; the request as a server without its keys reads it; the response as it is read when it was opened and
# when it was not, and with a byte of its header flipped. The answers are ntp-proto's own.
"""

MACS = """\
# Packets with a MAC that the port wrote for chronyd and read from it: interop/run --store wrote this list, on loopback,
# by a symmetric key for each hash. For each exchange: the MAC of the request as it is written after the header, and as
# it is read; the response as it is read, with its MAC as the remainder, and that MAC. The answers are ntp-proto's own.
"""


HEADERS = """\
# Headers that the port wrote for chronyd and read from it, alone, in NTPv3 and NTPv4: interop/run --store wrote this
# list, on loopback. For each version and stratum: the header of the request as it is written, that of the response as
# it is read and as it is written again. The answers are ntp-proto's own.
"""


def _written(field):
    names = {1: "uid", 2: "cookie"}
    if field.kind in names:
        return f"{names[field.kind]}:{field.data.hex()}"
    return f"placeholder:{field.length}"


def _cases(request, response, header, version):
    out = request.header.hex() + "00" * (len(request.data) - header)
    fields = ",".join(_written(field) for field in request.fields)
    yield f"write {version} 1 {request.nonce.hex()} {request.ciphertext.hex()} {header} {out} {fields} - -"
    yield f"survey {version} {header} {request.data.hex()}"
    yield f"survey {version} {header} {response.data.hex()}"
    yield f"read {version} {header} {request.data.hex()} 0:0:0 -"
    plain = response.plaintext
    yield f"read {version} {header} {response.data.hex()} 2:0:{len(plain)} {plain.hex()}"
    yield f"read {version} {header} {response.data.hex()} 1:0:0 -"
    flipped = bytes([response.data[0] ^ 0xFF]) + response.data[1:]
    yield f"read {version} {header} {flipped.hex()} 1:0:0 -"


def _store(top, name, head, groups):
    """Each group is a line that says what it is, and its cases."""
    path = os.path.join(top, "oracle", "list", name)
    oracle = os.path.join(top, "oracle", "target", "oracle")
    with open(path, "w", encoding="ascii") as f:
        f.write(head)
        for what, cases in groups:
            given = "".join(case + "\n" for case in cases)
            done = subprocess.run([oracle, "answer"], input=given, capture_output=True, check=True, text=True)
            f.write(f"# {what}\n")
            f.writelines(f"{case} => {answer}\n" for case, answer in zip(cases, done.stdout.splitlines(), strict=True))
    print(f"stored in {os.path.relpath(path, top)}")


def store(top, exchanges, header, version):
    groups = [
        (f"{placeholders} placeholders", list(_cases(request, response, header, version)))
        for placeholders, request, response in exchanges
    ]
    _store(top, "interop.txt", HEAD, groups)


def _mac_cases(request, response, header, version):
    keyid, body = int.from_bytes(request[header : header + 4], "big"), request[header + 4 :]
    yield f"mac-write {keyid} {body.hex()} {header} {request[:header].hex()}{'00' * (len(request) - header)}"
    yield f"mac-read {request[header:].hex()}"
    yield f"read {version} {header} {response.hex()} - -"
    yield f"mac-read {response[header:].hex()}"


def store_macs(top, exchanges, header, version):
    groups = [(name, list(_mac_cases(request, response, header, version))) for name, request, response in exchanges]
    _store(top, "macs.txt", MACS, groups)


def _header_words(data):
    """The words of a header in docs/REPLAY.md, from its bytes."""
    first, stratum, poll, precision = struct.unpack_from("!BBBb", data)
    times = struct.unpack_from("!III4Q", data, 4)
    return " ".join(map(str, (first >> 6, first >> 3 & 7, first & 7, stratum, poll, precision, *times)))


def _header_cases(request, response, header):
    yield f"header34-write 0 {'55' * header} {_header_words(request)}"
    yield f"header34-read {response.hex()}"
    yield f"header34-write 0 {'55' * header} {_header_words(response)}"


def store_headers(top, exchanges, header):
    groups = [(what, list(_header_cases(request, response, header))) for what, request, response in exchanges]
    _store(top, "headers.txt", HEADERS, groups)


def store_example(top, key, response):
    """A response and the key that opens it, for examples/nts.c. The key was of that exchange alone."""
    path = os.path.join(top, "examples", "nts.in")
    with open(path, "w", encoding="ascii") as f:
        f.write(f"{key.hex()}\n{response.data.hex()}\n")
    print(f"stored in {os.path.relpath(path, top)}")
