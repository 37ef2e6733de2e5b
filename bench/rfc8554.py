#!/usr/bin/env python3
"""Prints the values that the tests of dv_lmots and dv_lms expect.

RFC 8554 with LMOTS_SHA256_N32_W8 and one level of LMS over Python's hashlib, written from the
standard and independently of the crates. The identifier, the seed and the message are those of the
second tree in the standard's second test case (Appendix F), so the public key, and the signature at
the leaf 4, are the standard's own.
"""

import hashlib

ID = bytes.fromhex("215f83b7ccb9acbcd08db97b0d04dc2b")
SEED = bytes.fromhex("a1c4696e2608035a886100d05cd99945eb3370731884a8235e2fb3d4d71f2547")
MESSAGE = (
    b"The enumeration in the Constitution, of certain rights, shall not be construed to deny or "
    b"disparage others retained by the people.\n"
)
OTS_TYPE = 4
PLACES = 34


def sha256(*parts):
    return hashlib.sha256(b"".join(parts)).digest()


def number(value, octets):
    return value.to_bytes(octets, "big")


def chain(q, i, value, start, end):
    for j in range(start, end):
        value = sha256(ID, number(q, 4), number(i, 2), number(j, 1), value)
    return value


def private_value(q, i):
    return sha256(ID, number(q, 4), number(i, 2), b"\xff", SEED)


def one_time_key(q):
    ends = [chain(q, i, private_value(q, i), 0, 255) for i in range(PLACES)]
    return sha256(ID, number(q, 4), b"\x80\x80", *ends)


def one_time_signature(q, message):
    randomizer = private_value(q, 0xFFFD)
    hashed = sha256(ID, number(q, 4), b"\x81\x81", randomizer, message)
    digits = hashed + number(sum(255 - digit for digit in hashed), 2)
    values = [chain(q, i, private_value(q, i), 0, digits[i]) for i in range(PLACES)]
    return number(OTS_TYPE, 4) + randomizer + b"".join(values)


def nodes(height):
    """The nodes of the tree by their number: the root is 1, the leaves are the last half."""
    leaves = 1 << height
    hashes = [b""] * (2 * leaves)
    for r in reversed(range(1, 2 * leaves)):
        if r >= leaves:
            hashes[r] = sha256(ID, number(r, 4), b"\x82\x82", one_time_key(r - leaves))
        else:
            hashes[r] = sha256(ID, number(r, 4), b"\x83\x83", hashes[2 * r], hashes[2 * r + 1])
    return hashes


def public_key(tree, lms_type):
    return number(1, 4) + number(lms_type, 4) + number(OTS_TYPE, 4) + ID + tree[1]


def signature(tree, lms_type, q, message):
    r = len(tree) // 2 + q
    path = b""
    while r > 1:
        path += tree[r ^ 1]
        r //= 2
    return number(0, 4) + number(q, 4) + one_time_signature(q, message) + number(lms_type, 4) + path


def main():
    for q in (0, 4, 2**32 - 1):
        print(f"one-time key {q}: {one_time_key(q).hex()}")
        print(f"SHA-256 of its signature: {sha256(one_time_signature(q, MESSAGE)).hex()}")
    tree = nodes(5)
    print(f"public key, 32 leaves: {public_key(tree, 5).hex()}")
    for q in (0, 4, 31):
        octets = signature(tree, 5, q, MESSAGE)
        print(f"signature at leaf {q}: {len(octets)} octets, SHA-256 {sha256(octets).hex()}")
        print(f"  up to y[0]: {octets[:76].hex()}")
        print(f"  the type and path[0]: {octets[1132:1168].hex()}")


if __name__ == "__main__":
    main()
