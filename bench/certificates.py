#!/usr/bin/env python3
"""Prints the example of docs/formats.md: a server's own certificate and a certificate of service.

DER written from docs/formats.md over Python's hashlib, and signatures by rfc8554.py, both independently of the crates.
The key is that of rfc8554.py. With a folder as its argument it also writes own.der and sealed.der there.
"""

import pathlib
import sys

from rfc8554 import nodes, public_key, sha256, signature

LMS_TYPE = 5


def der(tag, *parts):
    contents = b"".join(parts)
    size = len(contents)
    if size < 128:
        return bytes([tag, size]) + contents
    octets = size.to_bytes((size.bit_length() + 7) // 8, "big")
    return bytes([tag, 128 + len(octets)]) + octets + contents


def oid(dotted):
    first, second, *arcs = (int(arc) for arc in dotted.split("."))
    contents = b""
    for arc in [40 * first + second, *arcs]:
        group = [arc % 128]
        while arc >= 128:
            arc //= 128
            group.append(128 + arc % 128)
        contents += bytes(reversed(group))
    return der(0x06, contents)


def integer(value):
    return der(0x02, value.to_bytes(value.bit_length() // 8 + 1, "big"))


HSS = der(0x30, oid("1.2.840.113549.1.9.16.3.17"))
SHA_256 = der(0x30, oid("2.16.840.1.101.3.4.2.1"))
RESPONSE_DATA = oid("1.2.840.113549.1.9.16.1.8")


def common_name(text):
    return der(0x30, der(0x31, der(0x30, oid("2.5.4.3"), der(0x0C, text))))


def extension(dotted, critical, value):
    return der(0x30, oid(dotted), der(0x01, b"\xff") if critical else b"", der(0x04, value))


def own_tbs(key, serial, name, start, end):
    extensions = [
        extension("2.5.29.15", True, bytes.fromhex("030206c0")),
        extension("2.5.29.37", True, der(0x30, oid("1.3.6.1.5.5.7.3.10"))),
        extension("2.5.29.14", False, der(0x04, sha256(key)[:20])),
    ]
    return der(
        0x30,
        der(0xA0, integer(2)),
        integer(serial),
        HSS,
        common_name(name),
        der(0x30, der(0x17, start), der(0x17, end)),
        common_name(name),
        der(0x30, HSS, der(0x03, b"\x00" + key)),
        der(0xA3, der(0x30, *extensions)),
    )


def own_certificate(tbs, signed):
    return der(0x30, tbs, HSS, der(0x03, b"\x00" + signed))


def cert_info(information, digest, serial, time):
    imprint = der(0x30, SHA_256, der(0x04, digest))
    return der(0x30, information, imprint, integer(serial), der(0x18, time))


def attribute(dotted, value):
    return der(0x30, oid(dotted), der(0x31, value))


def attributes(info, own):
    return [
        attribute("1.2.840.113549.1.9.3", RESPONSE_DATA),
        attribute("1.2.840.113549.1.9.4", der(0x04, sha256(info))),
        attribute(
            "1.2.840.113549.1.9.16.2.47",
            der(0x30, der(0x30, der(0x30, der(0x04, sha256(own))))),
        ),
    ]


def sealed(info, own, issuer, serial, signed):
    signer = der(
        0x30,
        integer(1),
        der(0x30, issuer, integer(serial)),
        SHA_256,
        der(0xA0, *attributes(info, own)),
        HSS,
        der(0x04, signed),
    )
    signed_data = der(
        0x30,
        integer(3),
        der(0x31, SHA_256),
        der(0x30, RESPONSE_DATA, der(0xA0, der(0x04, info))),
        der(0xA0, own),
        der(0x31, signer),
    )
    return der(0x30, oid("1.2.840.113549.1.7.2"), der(0xA0, signed_data))


def main():
    tree = nodes(5)
    key = public_key(tree, LMS_TYPE)
    name = b"notary"
    tbs = own_tbs(key, 1, name, b"250101000000Z", b"260101000000Z")
    own = own_certificate(tbs, signature(tree, LMS_TYPE, 0, tbs))
    info = cert_info(der(0x30, der(0x0A, b"\x01")), sha256(b"abc"), 2, b"20250101000000Z")
    message = der(0x31, *attributes(info, own))
    response = sealed(info, own, common_name(name), 1, signature(tree, LMS_TYPE, 1, message))
    for what, octets in [
        ("the signed part of the own certificate", tbs),
        ("the own certificate", own),
        ("the DVCSCertInfo", info),
        ("what is signed of the certificate of service", message),
        ("the certificate of service", response),
    ]:
        print(f"{what}: {len(octets)} octets, SHA-256 {sha256(octets).hex()}")
    print(f"the public key: {key.hex()}")
    print(f"the signed part: {tbs.hex()}")
    print(f"the DVCSCertInfo: {info.hex()}")
    print(f"what is signed: {message.hex()}")
    print(f"the certificate of service up to the certificates: {response[:148].hex()}")
    for folder in map(pathlib.Path, sys.argv[1:]):
        (folder / "own.der").write_bytes(own)
        (folder / "sealed.der").write_bytes(response)


if __name__ == "__main__":
    main()
