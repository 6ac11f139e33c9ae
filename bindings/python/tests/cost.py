"""Microseconds of calls of this module, and of the nearest ones of other libraries that are installed: the fastest of
many short samples, which are taken in turn.

  cost.py [ROUNDS]    1,000 rounds by default
"""
import pathlib
import sys
import time

import sec1

DER = bytes.fromhex((pathlib.Path(__file__).resolve().parent / "data/p256.txt").read_text())
CUT, TEXT = DER[:60], "1.2.840.10045.3.1.7"
KEY = sec1.EcPrivateKey.from_der(DER)
POINT = sec1.Point(KEY.public_key, 32)


def refused(read):
    """A call that is to be refused."""

    def call():
        try:
            read(CUT)
        except ValueError:
            return
        raise AssertionError("it isn't refused")

    return call


def this_module():
    return {
        "read a key": lambda: sec1.EcPrivateKey.from_der(DER),
        "refuse it, cut at 60": refused(sec1.EcPrivateKey.from_der),
        "write a key": KEY.to_der,
        "read a point": lambda: sec1.Point(KEY.public_key, 32),
        "compress a point": POINT.compress,
        "an identifier from text": lambda: sec1.ObjectIdentifier.from_text(TEXT),
    }


def cryptography():
    from cryptography import x509
    from cryptography.hazmat.primitives import serialization as s
    from cryptography.hazmat.primitives.asymmetric import ec

    key = s.load_der_private_key(DER, None)
    public, compressed = key.public_key(), (s.Encoding.X962, s.PublicFormat.CompressedPoint)
    form = (s.Encoding.DER, s.PrivateFormat.TraditionalOpenSSL, s.NoEncryption())
    return {
        "read a key": lambda: s.load_der_private_key(DER, None),
        "refuse it, cut at 60": refused(lambda data: s.load_der_private_key(data, None)),
        "write a key": lambda: key.private_bytes(*form),
        "read a point": lambda: ec.EllipticCurvePublicKey.from_encoded_point(ec.SECP256R1(), KEY.public_key),
        "compress a point": lambda: public.public_bytes(*compressed),
        "an identifier from text": lambda: x509.ObjectIdentifier(TEXT),
    }


def ecdsa():
    from ecdsa import NIST256p, SigningKey, VerifyingKey

    key, public = SigningKey.from_der(DER), VerifyingKey.from_string(KEY.public_key, NIST256p)
    return {
        "read a key": lambda: SigningKey.from_der(DER),
        "write a key": key.to_der,
        "read a point": lambda: VerifyingKey.from_string(KEY.public_key, NIST256p, validate_point=False),
        "compress a point": lambda: public.to_string("compressed"),
    }


def asn1crypto():
    from asn1crypto import core, keys

    def read(data=DER):
        key = keys.ECPrivateKey.load(data, strict=True)
        return [key[name].native for name in ("private_key", "parameters", "public_key")]

    made = keys.ECPrivateKey.load(DER)
    return {
        "read a key": read,
        "refuse it, cut at 60": refused(read),
        "write a key": lambda: made.dump(force=True),
        "an identifier from text": lambda: core.ObjectIdentifier(TEXT).contents,
    }


def pyasn1():
    from pyasn1.codec.der import decoder, encoder
    from pyasn1.error import PyAsn1Error
    from pyasn1.type import namedtype, tag, univ

    def explicit(number, kind):
        return kind.subtype(explicitTag=tag.Tag(tag.tagClassContext, tag.tagFormatConstructed, number))

    class Key(univ.Sequence):
        componentType = namedtype.NamedTypes(
            namedtype.NamedType("version", univ.Integer()),
            namedtype.NamedType("privateKey", univ.OctetString()),
            namedtype.OptionalNamedType("parameters", explicit(0, univ.ObjectIdentifier())),
            namedtype.OptionalNamedType("publicKey", explicit(1, univ.BitString())),
        )

    def read(data):
        try:
            return decoder.decode(data, asn1Spec=Key())
        except PyAsn1Error as error:
            raise ValueError from error

    key, _ = read(DER)
    return {
        "read a key": lambda: read(DER),
        "refuse it, cut at 60": refused(read),
        "write a key": lambda: encoder.encode(key),
        "an identifier from text": lambda: encoder.encode(univ.ObjectIdentifier(TEXT)),
    }


def sample(call, number):
    """Microseconds of a call, over so many."""
    begin = time.perf_counter()
    for _ in range(number):
        call()
    return (time.perf_counter() - begin) / number * 1e6


def main():
    rounds = int(sys.argv[1]) if len(sys.argv) > 1 else 1000
    columns = {}
    for make in (this_module, cryptography, ecdsa, asn1crypto, pyasn1):
        try:
            columns[make.__name__] = make()
        except ImportError:
            print(f"{make.__name__} isn't installed", file=sys.stderr)
    best = {(name, row): sample(call, 3) for name, calls in columns.items() for row, call in calls.items()}
    for _ in range(rounds):
        for name, calls in columns.items():
            for row, call in calls.items():
                least = best[name, row]
                best[name, row] = min(least, sample(call, max(2, min(50, int(500 / least)))))
    print("|".join(f" {name:23}" for name in ("", *columns)))
    for row in columns["this_module"]:
        cells = (f"{best[name, row]:.2f}" if (name, row) in best else "" for name in columns)
        print("|".join(f" {cell:23}" for cell in (row, *cells)))


if __name__ == "__main__":
    main()
