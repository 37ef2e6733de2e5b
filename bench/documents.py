#!/usr/bin/env python3
"""Writes a signed document and a signed request, docs/examples/document.pem and signed-request.pem.

The document has two signers, the subscriber and a partner, whose certificates the authority of chains.py issued; it brings along both
certificates and the authority's. The request asks for the certification of possession of the octets of `abc`, and the subscriber has
signed it. DER as in certificates.py, signatures by rfc8554.py, all independently of the crates. With a folder as its argument it
writes the two there in DER instead.
"""

import pathlib
import sys

from certificates import HSS, SHA_256, attribute, common_name, der, integer, oid
from chains import DIGITAL_SIGNATURE, Key, certificate, chain_of, extension, pem
from rfc8554 import sha256

ID_DATA = oid("1.2.840.113549.1.7.1")
ID_SIGNED_DATA = oid("1.2.840.113549.1.7.2")
REQUEST_DATA = oid("1.2.840.113549.1.9.16.1.7")
CONTRACT = b"The parties agree on what is written here.\n"


def attributes_of(content_type, content, own):
    """The signed attributes of a signer, in the order of their octets (X.690 11.6)."""
    return sorted([
        attribute("1.2.840.113549.1.9.3", content_type),
        attribute("1.2.840.113549.1.9.4", der(0x04, sha256(content))),
        attribute("1.2.840.113549.1.9.16.2.47", der(0x30, der(0x30, der(0x30, der(0x04, sha256(own)))))),
    ])


def signer(key, issuer, serial, own, content_type, content):
    attributes = attributes_of(content_type, content, own)
    signature = key.sign(der(0x31, *attributes))
    named = der(0x30, common_name(issuer.name), integer(serial))
    return der(0x30, integer(1), named, SHA_256, der(0xA0, *attributes), HSS, der(0x04, signature))


def signed(content_type, content, certificates, signers):
    encapsulated = der(0x30, content_type, der(0xA0, der(0x04, content)))
    data = der(0x30, integer(3), der(0x31, SHA_256), encapsulated, der(0xA0, *sorted(certificates)), der(0x31, *sorted(signers)))
    return der(0x30, ID_SIGNED_DATA, der(0xA0, data))


def main():
    root, middle, subscriber, partner = (Key(b"Example " + name) for name in (b"root", b"authority", b"subscriber", b"partner"))
    chain = chain_of(root, middle, subscriber)
    second = certificate(middle, partner, 2, [extension("2.5.29.15", True, DIGITAL_SIGNATURE)])
    first = chain["subscriber"]
    certificates = [first, second, chain["authority"]]
    request = der(0x30, der(0x30, der(0x0A, b"\x01")), der(0x04, b"abc"))
    messages = {
        "document": signed(ID_DATA, CONTRACT, certificates, [
            signer(subscriber, middle, 1, first, ID_DATA, CONTRACT),
            signer(partner, middle, 2, second, ID_DATA, CONTRACT),
        ]),
        "signed-request": signed(REQUEST_DATA, request, [first, chain["authority"]], [
            signer(subscriber, middle, 1, first, REQUEST_DATA, request),
        ]),
    }
    for folder in map(pathlib.Path, sys.argv[1:]):
        for name, octets in messages.items():
            (folder / f"{name}.der").write_bytes(octets)
    if not sys.argv[1:]:
        examples = pathlib.Path(__file__).resolve().parent.parent / "docs" / "examples"
        for name, octets in messages.items():
            print(f"{name}: {len(octets)} octets, SHA-256 {sha256(octets).hex()}")
            (examples / f"{name}.pem").write_text(pem(octets, "CMS"))


if __name__ == "__main__":
    main()
