#!/usr/bin/env python3
"""Makes certificates, public keys, containers of private keys and signatures with OpenSSL, and
writes each to openssl.txt, as a line WORD HEX. What OpenSSL finds in them is written to fields.txt,
behind a line that says what it is. They are new in each run. It prints what OpenSSL couldn't make,
and what it made but doesn't read.
"""
import contextlib
import os
import re
import subprocess
import tempfile
from pathlib import Path

HERE = Path(__file__).resolve().parent
# How OpenSSL reads a structure of each word.
READ = {
    "certificate": "x509 -inform DER -noout -text",
    "public-key-info": "pkey -pubin -inform DER -noout -text_pub",
    "private-key-info": "pkey -inform DER -noout -text",
    "signature": "asn1parse -inform DER",
}
# What `openssl genpkey` takes.
EC, RSA = "-algorithm EC -pkeyopt ec_paramgen_curve:", "-pkeyopt rsa_keygen_bits:"
CURVES = "prime256v1 secp384r1 secp521r1 secp224r1 secp256k1 brainpoolP256r1".split()
PARAMETERS = {
    "dsa": "-algorithm DSA -pkeyopt dsa_paramgen_bits:1024",
    "dh": "-algorithm DH -pkeyopt dh_paramgen_prime_len:512",
    "dhx": """-algorithm DHX -pkeyopt dh_paramgen_type:1 -pkeyopt dh_paramgen_prime_len:1024
        -pkeyopt dh_paramgen_subprime_len:160""",
}
KEYS = {
    **{it: EC + it for it in [*CURVES, "sect163k1"]},
    **{f"explicit-{it}": f"{EC}{it} -pkeyopt ec_param_enc:explicit"
       for it in ("prime256v1", "secp224r1", "sect163k1")},
    **{f"rsa-{it}": f"-algorithm RSA {RSA}{it}" for it in (512, 768, 1024)},
    "rsa-pss": f"-algorithm RSA-PSS {RSA}1024",
    "rsa-pss-sha256": f"""-algorithm RSA-PSS {RSA}1024 -pkeyopt rsa_pss_keygen_md:sha256
        -pkeyopt rsa_pss_keygen_mgf1_md:sha256 -pkeyopt rsa_pss_keygen_saltlen:20""",
    **{it: f"-algorithm {it.upper()}" for it in ("ed25519", "ed448", "x25519", "x448", "sm2")},
    **{it: f"-paramfile {it}.pem" for it in PARAMETERS},
}
MASKS = """default pkix utf8only nombstr MASK:0x1 MASK:0x2 MASK:0x4 MASK:0x10 MASK:0x800
    MASK:0x2000""".split()
# The attributes of names, one behind another.
SUBJECTS = {
    "RDNs with several attributes":
        "C=DE ST=State L=Town 0.O=Example +O=Second 0.OU=One 1.OU=Two +CN=name +UID=7",
    "IA5Strings and PrintableStrings":
        "emailAddress=a@example.org DC=org 1.DC=example serialNumber=17 dnQualifier=q GN=g",
    "identifiers of other attributes":
        "0.1.2.3.4.5=x 0.2.999.1=y 0.2.5.4.65=z businessCategory=b postalCode=12345",
    "a common name of 64 characters": "CN=" + "x" * 64,
    "an attribute of 300 characters": "0.1.2.3.4.5=" + "y" * 300,
}
EXTENSIONS = [
    "keyUsage=critical,digitalSignature,keyCertSign basicConstraints=critical,CA:true",
    "keyUsage=digitalSignature,decipherOnly basicConstraints=CA:false",
    """basicConstraints=critical,CA:true,pathlen:0 subjectKeyIdentifier=hash
        authorityKeyIdentifier=keyid:always,issuer:always""",
    "extendedKeyUsage=serverAuth,clientAuth,1.2.3.4 nsComment=text",
    "extendedKeyUsage=critical,OCSPSigning noCheck=ignored",
    "subjectAltName=DNS:example.org,DNS:*.example.org,IP:192.0.2.1,IP:2001:db8::1",
    "subjectAltName=critical,email:a@example.org,URI:http://example.org/,RID:1.2.3",
    "subjectAltName=otherName:1.2.3.4;UTF8:name issuerAltName=DNS:issuer.example",
    "nameConstraints=critical,permitted;DNS:example.org,excluded;email:.example.net",
    "certificatePolicies=1.2.3.4,2.5.29.32.0 policyConstraints=requireExplicitPolicy:3",
    "inhibitAnyPolicy=2 policyMappings=1.2.3:1.2.4",
    "authorityInfoAccess=OCSP;URI:http://example.org/ocsp tlsfeature=status_request",
    "crlDistributionPoints=URI:http://example.org/list.crl",
    "1.2.3.4.5.6=ASN1:UTF8String:text 1.2.3.4.5.7=critical,ASN1:BOOLEAN:true",
    "1.2.3.4.5.8=critical,DER:0500 2.999.4294967295.1=DER:0101ff",
    "2.999.340282366920938463463374607431768211455=DER:0500",
    f"1.2.3.9=DER:{'00' * 300} 1.2.3.10=DER:00",
]
CA = """[ca]\ndefault_ca=own\n[own]\nnew_certs_dir=.\ndatabase=index\nserial=serial
default_md=sha256\npolicy=any\nunique_subject=no\n[any]\ncommonName=supplied\n"""
# When each of some certificates begins, and when it ends.
TIMES = """500101000000Z-491231235959Z 700101000000Z-380119031407Z 20000229235959Z-20491231235959Z
    20491231235959Z-20500101000000Z 20500101000000Z-99991231235959Z 20240229120000Z-24000229120000Z
    19491231235959Z-21000228000000Z 00010101000000Z-20510630123000Z""".split()
# From here on a part of a structure is a text in the words of ASN1_generate_nconf(3), or a list of
# such a text and of the parts within. First the strings of attributes, by their type.
STRINGS = {
    "commonName": ["UTF8:text", "FORMAT:UTF8,UTF8:日本", "PRINTABLE:text", "T61:text",
                   "FORMAT:UTF8,BMP:日本", "FORMAT:UTF8,UNIV:text", "FORMAT:UTF8,UNIV:日本"],
    "1.2.840.113549.1.9.1": ["IA5:text"],
    "2.5.4.45": ["FORMAT:BITLIST,BITSTRING:1,5", "FORMAT:BITLIST,BITSTRING:0,8"],
    "1.2.3.4": ["NUMERIC:123 456", "VISIBLE:text", "GENSTR:text", "INTEGER:12345678901234567890",
                "BOOL:true", "NULL", "OID:1.2.3", "IMPLICIT:5,UTF8:text", "EXPLICIT:30,UTF8:text",
                "IMPLICIT:2A,UTF8:text", "IMPLICIT:3P,UTF8:text", "GENTIME:20240101000000Z",
                "ENUM:3", "UTF8:"],
}
SERIALS = """0 -1 -128 -129 127 128 255 256 0x7fffffffffffffffffffffffffffffffffffffff
    0xffffffffffffffffffffffffffffffffffffffff -0x8000000000000000""".split()
GENERALIZED_TIMES = {
    "a fraction of a second": ("20240101000000.5Z", "20500101000000.000001Z"),
    "a fraction of many digits": ("20001231235959.999999999999Z",
                                  "20991231235959.0000000000000000000000000000000000001Z"),
    "GeneralizedTime before 2050": ("20240101000000Z", "20400229235959Z"),
    "year 0": ("00000101000000Z", "00000229000000Z"),
    **{f"GeneralizedTime in {year}": (f"{year}0228235959Z", f"{year}1231000000Z")
       for year in (1600, 1900, 1950, 1999, 2000, 2049, 2100, 2400, 9999)},
}
ED25519 = ["SEQUENCE", "OID:1.3.101.112"]
# The bytes of its key, which the environment has.
PRIVATE, PUBLIC = "FORMAT:HEX,OCTETSTRING:$ENV::PRIVATE", "FORMAT:HEX,BITSTRING:$ENV::PUBLIC"
TEXT = ["SEQUENCE", "OID:commonName", "UTF8:text"]
EQUAL = [["SET", TEXT, ["SEQUENCE", "OID:commonName", "UTF8:text and more"], TEXT]]
IDENTIFIERS = ["IMPLICIT:1,FORMAT:HEX,BITSTRING:0102", "IMPLICIT:2,FORMAT:BITLIST,BITSTRING:1,5"]
TWO_EXTENSIONS = [
    "EXPLICIT:3,SEQUENCE", ["SEQUENCE", "OID:1.2.3.4", "BOOL:true", "FORMAT:HEX,OCT:0500"],
    ["SEQUENCE", "OID:1.2.3.5", "OCT:"],
]
NO_ATTRIBUTES = "IMPLICIT:0,SET"
ATTRIBUTES = [
    NO_ATTRIBUTES, ["SEQUENCE", "OID:1.2.840.113549.1.9.20", ["SET", "FORMAT:UTF8,BMP:a key"]],
    ["SEQUENCE", "OID:1.2.840.113549.1.9.21",
     ["SET", "FORMAT:HEX,OCT:01020304", "FORMAT:HEX,OCT:0102"]],
]
# Containers of the Ed25519 key: the version, and what is behind the key.
CONTAINERS = {
    "Ed25519, assembled": [0],
    "version 0, attributes": [0, ATTRIBUTES],
    "version 0, no attributes in a set": [0, NO_ATTRIBUTES],
    "version 1, nothing else": [1],
    "version 1, public key": [1, f"IMPLICIT:1,{PUBLIC}"],
    "version 1, attributes": [1, ATTRIBUTES],
    "version 1, both": [1, ATTRIBUTES, f"IMPLICIT:1,{PUBLIC}"],
    "version 1, no attributes in a set, public key": [1, NO_ATTRIBUTES, f"IMPLICIT:1,{PUBLIC}"],
    "version 1, public key of no bits": [1, "IMPLICIT:1,BITSTRING:"],
    "version 1, public key with unused bits": [1, "IMPLICIT:1,FORMAT:BITLIST,BITSTRING:1,5"],
}

# Commands.
CONTAINER = "pkcs8 -topk8 -nocrypt -outform DER"
SELF_SIGNED = "req -x509 -new -config /dev/stdin -key"
GENERATE = "asn1parse -genconf /dev/stdin -noout -out /dev/stdout"
# The lines of both files.
STRUCTURES, FOUND = [], []
# A line of `openssl asn1parse`.
LINE = re.compile(r" *(\d+):d=(\d+) +hl=(\d+) +l= *(\d+) +(?:cons|prim): (.*?) *(?::(.*))?$")


def openssl(words, given=b""):
    """Runs OpenSSL with these words, and returns what it writes."""
    command = ["openssl", *words.split()]
    return subprocess.run(command, input=given, capture_output=True, check=True).stdout


class Node:
    """An element as OpenSSL finds it: its tag in words, its bytes, which are cut out at the offsets
    that are printed, what it says and contains."""

    def __init__(self, data, line):
        *numbers, self.tag, self.text = LINE.match(line).groups()
        at, self.depth, header, size = map(int, numbers)
        self.whole = data[at : at + header + size]
        self.content = self.whole[header:].hex() or "empty"
        self.nodes = []

    @classmethod
    def tree(cls, data):
        """Returns the outermost element."""
        path = []
        for line in openssl("asn1parse -inform DER", data).decode(errors="replace").splitlines():
            node = cls(data, line)
            del path[node.depth :]
            if path:
                path[-1].nodes.append(node)
            path.append(node)
        return path[0]


def found(nodes, number):
    """Returns the content of the element with this tag of a context, or `-`."""
    return next((it.content for it in nodes if it.tag == f"cont [ {number} ]"), "-")


def algorithm(node):
    name, *parameters = node.nodes
    return name.content, parameters[0].whole.hex() if parameters else "-"


def time(node):
    return {"UTCTIME": "u:", "GENERALIZEDTIME": "g:"}[node.tag] + node.text


def public_key_info(top):
    return [*algorithm(top.nodes[0]), top.nodes[1].content]


def private_key_info(top):
    version, name, key, *others = top.nodes
    fields = [str(int(version.text, 16)), *algorithm(name), key.content]
    return [*fields, found(others, 0), found(others, 1)]


def certificate(top):
    signed, outer, bits = top.nodes
    version, parts = "0", signed.nodes
    if parts[0].tag == "cont [ 0 ]":
        version, parts = parts[0].nodes[0].text, parts[1:]
    serial, inner, issuer, validity, subject, key, *others = parts
    extensions = [it.nodes[0].content for it in others if it.tag == "cont [ 3 ]"]
    return [str(int(version, 16) + 1), serial.content, ":".join(algorithm(inner)), issuer.content,
            *map(time, validity.nodes), subject.content, *public_key_info(key), found(others, 1),
            found(others, 2), *(extensions or "-"), ":".join(algorithm(outer)), bits.content]


# What is found of a structure of each word: numbers and times are those that OpenSSL prints.
FINDERS = {
    "certificate": certificate,
    "public-key-info": public_key_info,
    "private-key-info": private_key_info,
    "signature": lambda top: [node.text.lower() for node in top.nodes],
}


def add(word, name, *steps, given=b""):
    """Adds the structure that the last step returns, where none fails. Each is given what the one
    before it returned, and is a function or the words of a command."""
    what = "not made"
    try:
        for step in steps:
            given = step(given) if callable(step) else openssl(step, given)
        what = "made, but not read"
        openssl(READ[word], given)
    except subprocess.CalledProcessError as error:
        reason = error.stderr.decode(errors="replace").partition("\n")[0]
        print(f"{what}: {word}, {name}: {reason}")
    if what != "not made":
        STRUCTURES.append(f"{word} {given.hex()}")
        FOUND.extend([f"# {name}", " ".join(FINDERS[word](Node.tree(given)))])


def configured(part):
    """Returns a configuration that describes a part."""
    sections = []

    def words_of(part):
        """Returns what stands for a part, and adds a section for what is within it."""
        if isinstance(part, str):
            return part
        lines = [f"{number}={words_of(it)}" for number, it in enumerate(part[1:])]
        sections.append("\n".join([f"[part{len(sections)}]", *lines]))
        return f"{part[0]}:part{len(sections) - 1}"

    return "\n".join([f"asn1={words_of(part)}", *sections]).encode()


def request(*attributes, extensions="", mask="default"):
    """Returns a configuration of `openssl req` with this name and these extensions."""
    lines = ["[req]", "prompt=no", "utf8=yes", "distinguished_name=name",
             "x509_extensions=extensions", f"string_mask={mask}", "[name]", *attributes,
             "[extensions]", *extensions.split()]
    return "\n".join(lines).encode()


def self_signed(name, key, given, words=""):
    """Adds a certificate that is signed with its own key."""
    add("certificate", name, f"{SELF_SIGNED} {key}.key -outform DER {words}", given=given)


def assembled(name, version=("EXPLICIT:0,INTEGER:2",), serial=1, issuer=(), subject=(),
              begin="UTCTIME:240101000000Z", end="UTCTIME:340101000000Z", more=()):
    """Adds a certificate of these parts, signed by the Ed25519 key."""
    inner = ["SEQUENCE", *version, f"INTEGER:{serial}", ED25519, ["SEQUENCE", *issuer],
             ["SEQUENCE", begin, end], ["SEQUENCE", *subject], ["SEQUENCE", ED25519, PUBLIC], *more]

    def sign(data):
        """Returns what describes the certificate, by what is signed of it."""
        Path("inner").write_bytes(data)
        bits = openssl("pkeyutl -sign -rawin -inkey ed25519.key -in inner").hex()
        return configured(["SEQUENCE", inner, ED25519, f"FORMAT:HEX,BITSTRING:{bits}"])

    add("certificate", name, GENERATE, sign, GENERATE, given=configured(inner))


def add_keys():
    """Makes the keys, and adds their forms: compressed and hybrid points, no public key, no
    parameters inside."""
    for name, words in PARAMETERS.items():
        openssl(f"genpkey -genparam {words} -out {name}.pem")
    for name, words in KEYS.items():
        openssl(f"genpkey {words} -out {name}.key")
        add("public-key-info", name, f"pkey -in {name}.key -pubout -outform DER")
        add("private-key-info", name, f"{CONTAINER} -in {name}.key")
        if words.startswith(EC):
            for form in ("compressed", "hybrid"):
                command = f"ec -in {name}.key -conv_form {form}"
                add("public-key-info", f"{name}, {form}", f"{command} -pubout -outform DER")
                add("private-key-info", f"{name}, {form}", command, CONTAINER)
            command = f"ec -in {name}.key -no_public"
            add("private-key-info", f"{name}, without public key", command, CONTAINER)


def add_containers():
    """Adds containers with further components."""
    os.environ["PRIVATE"] = openssl("pkey -in ed25519.key -outform DER")[-34:].hex()
    os.environ["PUBLIC"] = openssl("pkey -in ed25519.key -pubout -outform DER")[-32:].hex()
    for name, (version, *more) in CONTAINERS.items():
        given = configured(["SEQUENCE", f"INTEGER:{version}", ED25519, PRIVATE, *more])
        add("private-key-info", name, GENERATE, given=given)


def add_certificates():
    """Adds certificates by each key and by many digests, and those that another key signs."""
    plain = request("C=DE", "O=Example", "CN=a certificate", mask="utf8only",
                    extensions="basicConstraints=critical,CA:true subjectKeyIdentifier=hash")
    openssl(f"{SELF_SIGNED} prime256v1.key -out ca.pem", plain)
    signing = [it for it in KEYS if not it.startswith(("x", "dh"))]
    for name in signing:
        if name != "sm2":
            digest = "" if name.startswith("ed") else "-sha256"
            self_signed(f"{name}, self-signed", name, plain, digest)
    for name in ("rsa-768", "rsa-1024", "prime256v1", "secp384r1"):
        for digest in ("sha1", "sha224", "sha384", "sha512"):
            self_signed(f"{name}, {digest}", name, plain, f"-{digest}")
    for salt in (0, 20, 32):
        self_signed(f"RSA key, PSS signature, salt of {salt}", "rsa-1024", plain,
                    f"-sha256 -sigopt rsa_padding_mode:pss -sigopt rsa_pss_saltlen:{salt}")
    for name, digest in (("sm2", "sm3"), ("dsa", "sha1"), ("dsa", "sha224")):
        self_signed(f"{name}, {digest}", name, plain, f"-{digest}")
    for name in KEYS:
        add("certificate", f"{name}, by an issuer", f"pkey -in {name}.key -pubout",
            f"x509 -new -force_pubkey /dev/stdin -subj /CN={name} -CA ca.pem -CAkey prime256v1.key"
            " -outform DER")
    for name in signing:
        add("certificate", f"{name}, version 1", f"req -new -key {name}.key -config /dev/stdin",
            f"x509 -req -signkey {name}.key -outform DER", given=plain)


def add_names():
    """Adds certificates with strings of each kind, and with many names and extensions."""
    for mask in MASKS:
        for text in ("12345", "Example-Name (1)", "näive@example", "łódź 日本"):
            given = request(f"O={text}", f"CN={text}", mask=mask)
            self_signed(f"string_mask {mask}, {text}", "prime256v1", given)
    for what, attributes in SUBJECTS.items():
        self_signed(what, "secp256k1", request(*attributes.split()))
    self_signed("an empty subject", "secp256k1", request("CN=a"), "-subj /")
    self_signed("an RDN by -subj", "secp256k1", request("CN=a"), "-subj /CN=b+O=a+OU=c/CN=d")
    for extensions in EXTENSIONS:
        given = request("CN=extensions", extensions=extensions)
        self_signed(f"extensions: {extensions.split()[0]}", "secp224r1", given)


def add_times():
    """Adds certificates with times, as the commands `ca` and `x509` take them."""
    Path("ca.cnf").write_text(CA)
    Path("serial").write_text("01\n")
    given = openssl("req -new -key prime256v1.key -config /dev/stdin", request("CN=times"))
    for begin, end in (it.split("-") for it in TIMES):
        Path("index").write_text("")
        add("certificate", f"from {begin} to {end}",
            "ca -batch -config ca.cnf -selfsign -keyfile prime256v1.key -in /dev/stdin -notext"
            f" -startdate {begin} -enddate {end}", "x509 -outform DER", given=given)
    for days in (1, 3650, 20000, 100000, 2900000):
        command = f"x509 -req -signkey prime256v1.key -days {days} -outform DER"
        add("certificate", f"{days} days", command, given=given)


def add_assembled():
    """Adds certificates that no command makes as a whole."""
    for kind, texts in STRINGS.items():
        for text in texts:
            subject = [["SET", ["SEQUENCE", f"OID:{kind}", text]]]
            assembled(f"a string {text}", subject=subject)
    for serial in SERIALS:
        assembled(f"serial {serial}", serial=serial)
    assembled("version 1, assembled", version=[])
    assembled("version 2", version=["EXPLICIT:0,INTEGER:1"])
    assembled("version 2, identifiers", version=["EXPLICIT:0,INTEGER:1"], more=IDENTIFIERS)
    assembled("version 3, issuer identifier", more=["IMPLICIT:1,FORMAT:HEX,BITSTRING:FF"])
    assembled("version 3, subject identifier", more=["IMPLICIT:2,BITSTRING:"])
    assembled("no extensions in a sequence", more=["EXPLICIT:3,SEQUENCE"])
    assembled("identifiers and extensions", more=[*IDENTIFIERS, TWO_EXTENSIONS])
    assembled("equal attributes in a set", issuer=EQUAL, subject=EQUAL)
    assembled("an empty set", issuer=["SET"], subject=["SET"])
    for what, (begin, end) in GENERALIZED_TIMES.items():
        assembled(what, begin=f"GENTIME:{begin}", end=f"GENTIME:{end}")
    assembled("UTCTime and GeneralizedTime", end="GENTIME:99991231235959Z")


def short_signature(_):
    """Returns a signature of which r or s is shorter than the 32 bytes of a field element."""
    lengths = [32]
    while min(lengths) >= 32:
        der = openssl("dgst -sha256 -sign prime256v1.key", os.urandom(32))
        lengths = der[3], der[5 + der[3]]
    return der


def add_signatures():
    """Adds signatures of random data."""
    for name, count in {**dict.fromkeys(CURVES, 8), "sect163k1": 4, "sm2": 2, "dsa": 8}.items():
        command = f"dgst -{'sm3' if name == 'sm2' else 'sha256'} -sign {name}.key"
        for number in range(1, count + 1):
            add("signature", f"{name}, {number}", command, given=os.urandom(32))
    for number in range(1, 5):
        add("signature", f"prime256v1, short {number}", short_signature)


with tempfile.TemporaryDirectory() as room, contextlib.chdir(room):
    add_keys()
    add_containers()
    add_certificates()
    add_names()
    add_times()
    add_assembled()
    add_signatures()
for file, lines in {"openssl.txt": STRUCTURES, "fields.txt": FOUND}.items():
    (HERE / file).write_text("".join(f"{it}\n" for it in lines))
