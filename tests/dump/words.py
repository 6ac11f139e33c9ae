"""What is said last of bytes, and the command that helps: docs/FORMATS.md, "The picture of
`sec1_dump`"."""
from ber import count_of, shortened
from table import CLOSED, RAW
from values import NAMES, identifier, is_named

# The identifier of EC keys (RFC 5480).
EC_KEY = "1.2.840.10045.2.1"
EC = "openssl ec %s-in FILE %s-outform DER -out key.der"
EXPLICIT, LEGACY = "-param_enc named_curve ", "-provider legacy -provider default "
PKCS12 = "openssl pkcs12 %s-in FILE -nodes -nocerts -out key.pem"
NO_KEY = "This is no EC private key (RFC 5915)"
WRITES = "If OpenSSL reads it, this writes it in DER:"
NAMING = "Its curve is given by parameters. If OpenSSL knows it, this names it:"
ASKS = "If it has an EC key, this asks for the password and writes it:"
KEYS = "If OpenSSL reads it, this asks for the password and writes its keys as PEM:"
TWO = "These are two INTEGERs, as of %s: no %s."
# of forms that are told by INTEGERs alone, or that name something
SAID = {
    "DHParameter": "These are INTEGERs, as of Diffie-Hellman parameters (PKCS #3) or an RSA public "
                   "key: no key.",
    "RSAPublicKey": TWO % ("an RSA public key (RFC 8017)", "private key"),
    "signature": TWO % ("an ECDSA signature (RFC 3279)", "key"),
    "Dss-Parms": "These are three INTEGERs, as of DSA parameters (RFC 3279): no key.",
    "DomainParameters": "These are INTEGERs, as of Diffie-Hellman parameters (RFC 3279): no key.",
    "ECParameters": "These are the parameters of a curve (RFC 3279): no key.",
    "PFX": "This is PKCS #12 (RFC 7292).",
    "encrypted": "This is encrypted PKCS #8 (RFC 5958).",
    "encrypted12": "This is encrypted PKCS #8 (RFC 5958).",
}
KNOWN = [
    ("a Java keystore", lambda data: data[:4] in (b"\xFE\xED\xFE\xED", b"\xCE\xCE\xCE\xCE")),
    ("gzip (RFC 1952)", lambda data: data[:3] == b"\x1F\x8B\x08"),
    ("a PVK file", lambda data: data[:4] == b"\x1E\xF1\xB5\xB0"),
    ("a KeePass file", lambda data: data[:4] == b"\x03\xD9\xA2\x9A"),
    ("an OpenPGP key (RFC 9580)", lambda data: data[:1] in (b"\x95", b"\x99") and data[3:4] == b"\4"
     and int.from_bytes(data[1:3], "big") <= len(data) - 3),
]
# The bytes of a coordinate (SEC 2, RFC 3279, RFC 5639), and those of the order where it has more.
SIZES = {name: (size, size) for names, size in (
    ("secp112r1 secp112r2", 14), ("secp128r1 secp128r2", 16),
    ("secp160k1 secp160r1 secp160r2 brainpoolP160r1 brainpoolP160t1", 20),
    ("secp192k1 P-192 prime192v2 prime192v3 brainpoolP192r1 brainpoolP192t1", 24),
    ("secp224k1 P-224 brainpoolP224r1 brainpoolP224t1", 28),
    ("prime239v1 prime239v2 prime239v3", 30),
    ("secp256k1 P-256 brainpoolP256r1 brainpoolP256t1", 32),
    ("brainpoolP320r1 brainpoolP320t1", 40), ("P-384 brainpoolP384r1 brainpoolP384t1", 48),
    ("brainpoolP512r1 brainpoolP512t1", 64), ("P-521", 66)) for name in names.split()}
SIZES |= {name: (SIZES[name][0], SIZES[name][1] + 1)
          for name in ("secp160k1", "secp160r1", "secp160r2", "secp224k1")}


class Words:
    """What is said of a picture that is drawn without --all, and the command that helps."""

    def __init__(self, picture, source, runs):
        self.picture, self.plan, self.data = picture, picture.plan, picture.data
        self.source, self.rows = source, picture.rows
        self.lines, self.command, self.is_key = [], None, False
        self.form = self.plan.form.structure if self.plan.form else None
        if not self.data:
            self.lines = ["The block is empty." if source == "pem" else "The input is empty."]
        elif self.form is None:
            self.lines = [self.without_form()]
        else:
            self.is_key = self.form == "ECPrivateKey" and self.is_read()
            self.lines = [self.whole() if self.plan.is_whole else self.broken()]
            fits = self.say_sizes()
            lead, command = None, None
            if fits and not any(map(self.is_damaged, self.rows)):
                lead, command = self.advice()
            if command and self.source in ("der", "pem") and runs:
                self.lines.append(lead)
                self.command = command
        self.lines = [shortened(line) for line in self.lines]

    def without_form(self):
        """Returns what is said of bytes without a form."""
        data = self.data
        if self.plan.is_tree:
            return f"{NO_KEY}."
        if len(data) in RAW:
            return f"These are {len(data)} bytes, as of a raw private key: no DER."
        known = next((f"This begins as {name}" for name, begins in KNOWN if begins(data)), None)
        many = f"These are {len(data)} bytes" if len(data) > 1 else "This is 1 byte"
        return f"{known or many}: no DER."

    def is_damaged(self, row):
        """Returns whether a row says what no command repairs: neither lengths and strings as in
        BER, nor bytes after the root, nor a curve that is given by its parameters."""
        kinds = {kind for kind, _ in row.marks}
        if row.kind == "not drawn" and "rest" not in kinds:
            return True
        return bool(kinds - {"length", "indefinite", "string", "rest"}) and not gives_curve(row)

    def advice(self):
        """Returns what is said of the command that helps, if OpenSSL reads this input, and the
        command."""
        form, oid = self.form, self.find("algorithm")
        oid, has_public = oid.label.oid if oid else None, bool(self.find("publicKey", 1))
        writes = WRITES, self.ec() if self.curve()[0] else None
        if form == "ECPrivateKey" and self.version() == 1:
            if any(map(gives_curve, self.rows)):
                return NAMING, self.ec(EXPLICIT)
            return (None, None) if self.is_key and self.source == "der" else writes
        if form == "ec8" and self.find("ECPrivateKey", 2) and not has_public:
            return writes
        if form == "any8" and oid == EC_KEY and not has_public:
            curve = self.find("parameters", 2)
            if curve and curve.head.first == 0x30:
                return NAMING, self.ec(EXPLICIT)
        if form == "PFX" and self.source == "der":
            return KEYS, PKCS12 % ("-legacy " * (oid == "1.3.14.3.2.26"))
        if form in ("encrypted", "encrypted12"):
            arcs = [int(arc) for arc in oid.split(".")] if oid else []
            is_old = arcs[6:7] < [13] if form == "encrypted" else arcs[7:8] not in ([3], [4])
            return ASKS, self.ec(legacy=LEGACY if is_old else "")
        return None, None

    def ec(self, names="", legacy=""):
        return EC % (legacy + ("-inform DER " if self.source == "der" else ""), names)

    def find(self, name, *depths):
        """Returns the first row of a field with this name, at one of these depths."""
        return next((row for row in self.rows if row.field and row.field.name == name
                     and row.depth in (depths or range(9))), None)

    def content(self, row):
        return self.data[row.start:row.stop] if row else b""

    def whole(self):
        """Returns what bytes are that follow their form to the end."""
        form = self.plan.form
        if self.form == "ECPrivateKey":
            return self.key()
        if form.name == "PrivateKeyInfo":
            oid = self.find("algorithm", 2).label.oid
            if oid == EC_KEY:
                return f"This is {form.words} with an EC key."
            known = f": {NAMES.get(oid, oid)}" if oid else ""
            return f"This is {form.words} with another key{known}. It has no EC key."
        if self.form == "oid":
            known = NAMES.get(identifier(self.data[2:]) if self.rows[0].start == 2 else None)
            curve = "the curve " if known in SIZES else ""
            named = f"names {curve}{known}" if known else "is an identifier"
            return f"This {named}: it has no private key."
        if self.form in SAID:
            return SAID[self.form]
        if form.secrecy == CLOSED or self.plan.is_private:
            return f"This is {form.words}, no EC key."
        return f"This is {form.words}: it has no private key."

    def broken(self):
        """Returns what bytes are that don't follow their form to the end."""
        is_ec = self.form == "ECPrivateKey"
        front = NO_KEY if is_ec else f"This begins as {self.plan.form.words}"
        root = self.rows[0]
        if self.plan.is_cut:
            there, whole = len(self.data), root.start + root.head.length
            return f"{front}: {there} of {whole} bytes are there."
        at = next((row.at for row in self.rows if row.marks or row.kind == "not drawn"), None)
        return f"{front}." if at is None else f"{front}: see offset {at}."

    def curve(self):
        """Returns the name of the last curve that is named, and the row that has it."""
        rows = [row for row in self.rows if row.field and row.field.name == "namedCurve"]
        return NAMES.get(rows[-1].label.oid) if rows else None, rows[-1] if rows else None

    def key(self):
        """Returns what is said of an ECPrivateKey."""
        (name, row), version = self.curve(), self.version()
        if not self.is_key:
            return self.broken() if version == 1 else f"{NO_KEY}: its version is {version}."
        if row is None:
            return "This is an EC private key (RFC 5915), with no curve named."
        where = name or (f"the curve {row.label.oid}" if row.label.oid else "another curve")
        return f"This is an EC private key (RFC 5915) on {where}."

    def version(self):
        row = self.find("version", 1)
        return self.content(row)[0] if row else None

    def is_read(self):
        """Returns whether `EcPrivateKey::try_from` reads the bytes: DER (RFC 5915)."""
        if not self.plan.is_whole or any(row.head and row.head.marks for row in self.rows):
            return False
        row, point = self.curve()[1], self.find("the point")
        is_curve = row is None or is_named(self.content(row))
        has_unused = point is not None and self.content(point)[:1] != b"\0"
        return self.version() == 1 and not has_unused and is_curve

    def say_sizes(self):
        """Says which lengths don't fit the curve. Returns whether a key fits, as far as known."""
        name, point, fits, count = self.curve()[0], self.find("the point"), True, len(self.lines)
        size, order = SIZES.get(name, (None, None))
        depth = {"ECPrivateKey": 1, "ec8": 3}.get(self.form)
        key = self.find("privateKey", depth) if depth else None
        if size and key and key.stop - key.start != order and not key.opened:
            there = count_of(key.stop - key.start)
            self.lines.append(f"Its private key has {there}, where {name} has {order}.")
        if point and point.shown > 1:
            unused, form = self.content(point)[:2]
            wanted, there = {2: size, 3: size}.get(form, 2 * (size or 0)), point.head.length - 2
            is_plain = form in (2, 3, 4, 6, 7)
            fits = is_plain and unused == 0
            if size and is_plain and there != wanted:
                self.lines.append(f"Its point has {count_of(there)}, where {name} has {wanted}.")
        return fits and count == len(self.lines)


def gives_curve(row):
    """Returns whether a row is a SEQUENCE where a curve would be named."""
    is_curve = row.expected and row.expected[0].name == "namedCurve"
    return bool(is_curve and row.head and row.head.is_type(16))
