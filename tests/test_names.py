"""The names of identifiers in crates/der_view/names.txt, beside OpenSSL's and those of pyca's
`cryptography`, by dotted text; and the table in crates/der_view/src/names, which is made of them.

The case of letters, `id-`, what OpenSSL has before the name of the module, and all but letters and
digits aren't compared. A name that differs on purpose is in OTHERS.
"""

import re
import sys

from conftest import TOP, lines_of
from cryptography.hazmat import _oid

sys.path.insert(0, str(TOP / "tests/dump"))
import make_names  # noqa: E402

# The names of the modules, where OpenSSL or pyca has others: the dotted texts, by why.
OTHERS = {
    "Microsoft's headers have only constants": """1.3.6.1.4.1.311.2.1.14 1.3.6.1.4.1.311.2.1.21
        1.3.6.1.4.1.311.2.1.22 1.3.6.1.4.1.311.10.3.1 1.3.6.1.4.1.311.10.3.3 1.3.6.1.4.1.311.10.3.4
        1.3.6.1.4.1.311.17.1 1.3.6.1.4.1.311.17.2 1.3.6.1.4.1.311.20.2.2 1.3.6.1.4.1.311.20.2.3
        1.3.6.1.4.1.311.21.7 1.3.6.1.4.1.311.21.10""",
    "FIPS 186-4 names these curves": """1.2.840.10045.3.1.1 1.2.840.10045.3.1.7 1.3.132.0.33
        1.3.132.0.34 1.3.132.0.35""",
    "RFC 4524": """0.9.2342.19200300.100.1.20 0.9.2342.19200300.100.1.41 0.9.2342.19200300.100.1.42
        0.9.2342.19200300.100.1.43""",
    "RFC 1274": "0.9.2342.19200300.100.1.27",
    "RFC 7836, RFC 9215: 12 for 2012": """1.2.643.7.1.1.1.1 1.2.643.7.1.1.1.2 1.2.643.7.1.1.2.2
        1.2.643.7.1.1.2.3 1.2.643.7.1.1.3.2 1.2.643.7.1.1.3.3 1.2.643.7.1.1.4.1 1.2.643.7.1.1.4.2
        1.2.643.7.1.1.6.1 1.2.643.7.1.1.6.2""",
    "RFC 3279: gnBasis, c2pnb176w1, id-dsa": """1.2.840.10045.1.2.3.1 1.2.840.10045.3.0.4
        1.2.840.10040.4.1""",
    "RFC 5652: id-digestedData": "1.2.840.113549.1.7.5",
    "RFC 3274: id-alg-zlibCompress": "1.2.840.113549.1.9.16.3.8",
    "RFC 5126: id-spq-ets-uri, id-spq-ets-unotice": """1.2.840.113549.1.9.16.5.1
        1.2.840.113549.1.9.16.5.2""",
    "RFC 7292: without a 1": """1.2.840.113549.1.12.1.1 1.2.840.113549.1.12.1.2
        1.2.840.113549.1.12.1.3 1.2.840.113549.1.12.1.4 1.2.840.113549.1.12.1.5
        1.2.840.113549.1.12.1.6""",
    "RFC 6962 has no names; these are what they hold": """1.3.6.1.4.1.11129.2.4.2
        1.3.6.1.4.1.11129.2.4.3 1.3.6.1.4.1.11129.2.4.4""",
    "RFC 4556": "1.3.6.1.5.2.3.4 1.3.6.1.5.2.3.5",
    "RFC 5755: id-pe-ac-auditIdentity": "1.3.6.1.5.5.7.1.4",
    "RFC 3779, RFC 8360": """1.3.6.1.5.5.7.1.7 1.3.6.1.5.5.7.1.8 1.3.6.1.5.5.7.1.28
        1.3.6.1.5.5.7.1.29""",
    "RFC 6960: id-pkix-ocsp-basic and so on": """1.3.6.1.5.5.7.48.1.1 1.3.6.1.5.5.7.48.1.3
        1.3.6.1.5.5.7.48.1.4 1.3.6.1.5.5.7.48.1.5 1.3.6.1.5.5.7.48.1.8 1.3.6.1.5.5.7.48.1.9""",
    "OIW": "1.3.14.3.2.12 1.3.14.3.2.27",
    "TeleTrusT, ISIS-MTT": "1.3.36.3.3.1.2 1.3.36.8.3.3",
    "RFC 5280: id-ce-cRLReasons, id-ce-deltaCRLIndicator, id-ce-extKeyUsage": """2.5.29.21 2.5.29.27
        2.5.29.37""",
    "RFC 8702": "2.16.840.1.101.3.4.2.19 2.16.840.1.101.3.4.2.20",
    "Netscape's documents": "2.16.840.1.113730.1.7 2.16.840.1.113730.2.5",
}

ALLOWED = {dotted for texts in OTHERS.values() for dotted in texts.split()}


def test_table_is_made_of_the_names():
    assert make_names.TABLE.read_text() == make_names.text()


def test_number_of_names():
    assert len(make_names.names()) >= 1096


def test_names_that_differ_are_there():
    assert ALLOWED <= set(make_names.names())


def test_names_of_openssl(tell):
    names = {}
    for line in lines_of("openssl", "list", "-objects"):
        name, equals, rest = line.partition(" = ")
        if equals:
            long, _, dotted = rest.rpartition(", ")
            names.setdefault(dotted, set()).update({name, long or name})
    compare(tell, names)


def test_names_of_cryptography(tell):
    compare(tell, {oid.dotted_string: {name} for oid, name in _oid._OID_NAMES.items()})


def compare(tell, others):
    """Compares each name that another table has too, by dotted text."""
    for dotted, name in make_names.names().items():
        if dotted in others:
            is_same = any(plain(it).endswith(plain(name)) for it in others[dotted])
            tell(f"{dotted} is {name}, not {others[dotted]}", is_same or dotted in ALLOWED)


def plain(name):
    """Returns the letters and digits of a name, without `id-`."""
    return re.sub(r"[^a-z0-9]", "", name.lower().removeprefix("id-"))
