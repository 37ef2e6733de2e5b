#!/usr/bin/env python3
"""Writes a chain of certificates of keys, docs/examples/root.pem, authority.pem and subscriber.pem; or a mesh.

A root issues a certificate to itself and to an authority, which may issue no other authority (a path length bound of 0), and the
authority issues one to a subscriber. DER as in certificates.py, signatures by rfc8554.py, each key with a seed of its own; all
independently of the crates. With a folder as its argument it writes the three there in DER instead, and mesh.00.der to mesh.15.der
beside them: certificates of one name and one key, each of which issued each, so that a search has to verify every pair.
"""

import base64
import pathlib
import sys

import rfc8554
from certificates import HSS, common_name, der, extension, integer
from rfc8554 import sha256

LMS_TYPE = 5
FROM, UNTIL = b"200101000000Z", b"491231235959Z"
KEY_CERT_SIGN = bytes.fromhex("03020106")
DIGITAL_SIGNATURE = bytes.fromhex("030206c0")


class Key:
    """The holder of a key of 32 leaves, which signs with one after another."""

    def __init__(self, name):
        self.name = name
        self.id, self.seed = sha256(b"identifier of ", name)[:16], sha256(b"seed of ", name)
        self.leaf = 0
        self.choose()
        self.tree = rfc8554.nodes(5)
        self.public = rfc8554.public_key(self.tree, LMS_TYPE)

    def choose(self):
        rfc8554.ID, rfc8554.SEED = self.id, self.seed

    def sign(self, message):
        self.choose()
        self.leaf += 1
        return rfc8554.signature(self.tree, LMS_TYPE, self.leaf - 1, message)


def certificate(issuer, subject, serial, extensions):
    tbs = der(
        0x30,
        der(0xA0, integer(2)),
        integer(serial),
        HSS,
        common_name(issuer.name),
        der(0x30, der(0x17, FROM), der(0x17, UNTIL)),
        common_name(subject.name),
        der(0x30, HSS, der(0x03, b"\x00" + subject.public)),
        der(0xA3, der(0x30, *extensions)),
    )
    return der(0x30, tbs, HSS, der(0x03, b"\x00" + issuer.sign(tbs)))


def authority(*bound):
    return [
        extension("2.5.29.19", True, der(0x30, der(0x01, b"\xff"), *bound)),
        extension("2.5.29.15", True, KEY_CERT_SIGN),
    ]


def mesh():
    every = Key(b"Every authority")
    return [certificate(every, every, serial, authority()) for serial in range(1, 17)]


def pem(octets, label="CERTIFICATE"):
    lines = base64.encodebytes(octets).decode()
    text = lines.replace("\n", "")
    rows = [text[at : at + 64] for at in range(0, len(text), 64)]
    return "\n".join([f"-----BEGIN {label}-----", *rows, f"-----END {label}-----", ""])


def chain_of(root, middle, subscriber):
    return {
        "root": certificate(root, root, 1, authority()),
        "authority": certificate(root, middle, 2, authority(integer(0))),
        "subscriber": certificate(middle, subscriber, 1, [extension("2.5.29.15", True, DIGITAL_SIGNATURE)]),
    }


def main():
    chain = chain_of(Key(b"Example root"), Key(b"Example authority"), Key(b"Example subscriber"))
    for folder in map(pathlib.Path, sys.argv[1:]):
        for name, octets in chain.items():
            (folder / f"{name}.der").write_bytes(octets)
        for place, octets in enumerate(mesh()):
            (folder / f"mesh.{place:02}.der").write_bytes(octets)
    if not sys.argv[1:]:
        examples = pathlib.Path(__file__).resolve().parent.parent / "docs" / "examples"
        for name, octets in chain.items():
            print(f"{name}: {len(octets)} octets, SHA-256 {sha256(octets).hex()}")
            (examples / f"{name}.pem").write_text(pem(octets))


if __name__ == "__main__":
    main()
