"""AES-SIV-CMAC (RFC 5297), over the block cipher and CMAC of python3-cryptography.

That library's own AESSIV refuses an empty plaintext, which most NTS requests have.
"""
from cryptography.hazmat.primitives.ciphers import Cipher, algorithms, modes
from cryptography.hazmat.primitives.cmac import CMAC

BLOCK = 16


class NotAuthentic(Exception):
    """A ciphertext that does not belong to its nonce and associated data."""


def _cmac(key, data):
    mac = CMAC(algorithms.AES(key))
    mac.update(data)
    return mac.finalize()


def _xor(a, b):
    return bytes(x ^ y for x, y in zip(a, b, strict=True))


def _doubled(block):
    """Twice a block in the field of 2^128 elements."""
    number = int.from_bytes(block, "big") << 1
    if number >> 128:
        number = (number & ((1 << 128) - 1)) ^ 0x87
    return number.to_bytes(BLOCK, "big")


def _synthetic(key, strings):
    """S2V: one block that stands for a row of strings."""
    block = _cmac(key, bytes(BLOCK))
    for string in strings[:-1]:
        block = _xor(_doubled(block), _cmac(key, string))
    last = strings[-1]
    if len(last) >= BLOCK:
        return _cmac(key, last[:-BLOCK] + _xor(last[-BLOCK:], block))
    padded = (last + b"\x80").ljust(BLOCK, b"\0")
    return _cmac(key, _xor(_doubled(block), padded))


def _counted(key, block, data):
    """Counter mode, from a block with two bits cleared."""
    start = bytearray(block)
    start[8] &= 0x7F
    start[12] &= 0x7F
    cipher = Cipher(algorithms.AES(key), modes.CTR(bytes(start))).encryptor()
    return cipher.update(data) + cipher.finalize()


def sealed_strings(key, strings):
    """Seals the last of a row of strings; the others are authenticated."""
    half = len(key) // 2
    block = _synthetic(key[:half], strings)
    return block + _counted(key[half:], block, strings[-1])


def seal(key, nonce, associated, plaintext):
    return sealed_strings(key, [associated, nonce, plaintext])


def open_sealed(key, nonce, associated, ciphertext):
    if len(ciphertext) < BLOCK:
        raise NotAuthentic
    half = len(key) // 2
    block = ciphertext[:BLOCK]
    plaintext = _counted(key[half:], block, ciphertext[BLOCK:])
    if seal(key, nonce, associated, plaintext) != ciphertext:
        raise NotAuthentic
    return plaintext
