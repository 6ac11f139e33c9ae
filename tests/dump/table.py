"""The structures whose fields have names, written from their standards: the name of each, its
standard, and of each field its tag, whether it may be absent (?) or come again (*), what its
content is, and its name.

A content is hidden, or shown up to so many bytes; it has at most so many (short), or one (version);
it is an identifier that begins so (of:arcs), or a point; or its fields are those of a structure, or
are drawn if they are that to its end (=structure), or of a BIT STRING if its bits are, and none is
unused (bits:structure). Tag 17 is a time, and 00 any element. After some identifiers other fields
come, by what they begin with (CASES).
"""
import re
from collections import namedtuple

# The lengths of raw private keys on P-224, P-256, P-384 and P-521.
RAW = (28, 32, 48, 66)
# What comes after the key in PKCS #8.
OTHERS = "A0? hidden attributes, 81? hidden publicKey"
TABLE = f"""
ECPrivateKey | RFC 5915 section 3 |
  02 version version, 04 hidden privateKey, A0? curve parameters, A1? bits publicKey
curve | RFC 5480 section 2.1.1: namedCurve, which RFC 5915 demands | 06 shown12 namedCurve
bits | RFC 5915 section 3: publicKey | 03 point the_point
ec8 | RFC 5958 section 2: OneAsymmetricKey, with the algorithms of RFC 5480 and RFC 5915 |
  02 version version, 30 ecAlgorithm privateKeyAlgorithm, 04 =ecKey privateKey, A0? hidden attributes,
  81? point publicKey
rsa8 | RFC 8017 appendix A.1 |
  02 version version, 30 rsaAlgorithm privateKeyAlgorithm, 04 =rsaKey privateKey, {OTHERS}
dsa8 | RFC 3279 section 2.3.2 |
  02 version version, 30 dsaAlgorithm privateKeyAlgorithm, 04 =numberKey privateKey, {OTHERS}
dh8 | PKCS #3 section 9 |
  02 version version, 30 dhAlgorithm privateKeyAlgorithm, 04 =numberKey privateKey, {OTHERS}
x942 | RFC 3279 section 2.3.3 |
  02 version version, 30 x942Algorithm privateKeyAlgorithm, 04 =numberKey privateKey, {OTHERS}
octet8 | RFC 8410 section 7 |
  02 version version, 30 edwardsAlgorithm privateKeyAlgorithm, 04 =octetKey privateKey, {OTHERS}
any8 | RFC 5958 section 2 |
  02 version version, 30 algorithm privateKeyAlgorithm, 04 hidden privateKey, {OTHERS}
ecKey | RFC 5915 section 3 | 30 ECPrivateKey ECPrivateKey
rsaKey | RFC 8017 appendix A.1.2 | 30 RSAPrivateKey RSAPrivateKey
numberKey | an INTEGER, as OpenSSL writes it | 02 hidden the_key
octetKey | RFC 8410 section 7: CurvePrivateKey | 04 hidden the_key
RSAPrivateKey | RFC 8017 appendix A.1.2 |
  02 version version, 02 hidden modulus, 02 short8 publicExponent, 02 hidden privateExponent,
  02 hidden prime1, 02 hidden prime2, 02 hidden exponent1, 02 hidden exponent2, 02 hidden coefficient,
  30? hidden otherPrimeInfos
DSAPrivateKey | as OpenSSL writes it |
  02 version version, 02 hidden p, 02 hidden q, 02 hidden g, 02 hidden y, 02 hidden x
PFX | RFC 7292 section 4 | 02 version version, 30 ContentInfo authSafe, 30? mac macData
mac | RFC 7292 section 4: MacData | 30 digest mac, 04 hidden macSalt, 02? short8 iterations
Certificate | RFC 5280 section 4.1 |
  30 tbs tbsCertificate, 30 algorithm signatureAlgorithm, 03 hidden signatureValue
tbs | RFC 5280 section 4.1 |
  A0? version0 version, 02 shown20 serialNumber, 30 algorithm signature, 30 names issuer,
  30 validity validity, 30 names subject, 30 SubjectPublicKeyInfo subjectPublicKeyInfo,
  81? hidden issuerUniqueID, 82? hidden subjectUniqueID, A3? extensions0 extensions
version0 | RFC 5280 section 4.1: an explicit tag | 02 version version
names | RFC 5280 section 4.1.2.4 | 31* names1 RelativeDistinguishedName
names1 | RFC 5280 section 4.1.2.4 | 30* names2 AttributeTypeAndValue
names2 | RFC 5280 section 4.1.2.4 | 06 shown12 type, 00 shown255 value
validity | RFC 5280 section 4.1.2.5 | 17 shown19 notBefore, 17 shown19 notAfter
extensions0 | RFC 5280 section 4.1: an explicit tag | 30 extensions extensions
extensions | RFC 5280 section 4.1 | 30* extension Extension
extension | RFC 5280 section 4.1 | 06 shown12 extnID, 01? version critical, 04 hidden extnValue
subjectKey | RFC 5280 section 4.2.1.2 | 01? version critical, 04 =subjectKey0 extnValue
subjectKey0 | RFC 5280 section 4.2.1.2 | 04 shown64 SubjectKeyIdentifier
authorityKey | RFC 5280 section 4.2.1.1 | 01? version critical, 04 =authorityKey0 extnValue
authorityKey0 | RFC 5280 section 4.2.1.1 | 30 authorityKey1 AuthorityKeyIdentifier
authorityKey1 | RFC 5280 section 4.2.1.1: implicit tags |
  80? shown64 keyIdentifier, A1? hidden authorityCertIssuer, 82? shown20 authorityCertSerialNumber
CertificationRequest | RFC 2986 section 4.2 |
  30 request certificationRequestInfo, 30 algorithm signatureAlgorithm, 03 hidden signature
request | RFC 2986 section 4.1 |
  02 version version, 30 names subject, 30 SubjectPublicKeyInfo subjectPKInfo, A0 hidden attributes
CertificateList | RFC 5280 section 5.1 |
  30 list tbsCertList, 30 algorithm signatureAlgorithm, 03 hidden signatureValue
list | RFC 5280 section 5.1 |
  02? version version, 30 algorithm signature, 30 names issuer, 17 shown19 thisUpdate, 17? shown19 nextUpdate,
  30? revoked revokedCertificates, A0? extensions0 crlExtensions
revoked | RFC 5280 section 5.1 | 30* revoked1 revokedCertificate
revoked1 | RFC 5280 section 5.1 |
  02 shown20 userCertificate, 17 shown19 revocationDate, 30? extensions crlEntryExtensions
ecPublic | RFC 5480 section 2 | 30 ecAlgorithm algorithm, 03 point subjectPublicKey
rsaPublic | RFC 3279 section 2.3.1 | 30 rsaAlgorithm algorithm, 03 bits:rsaBits subjectPublicKey
rsaBits | RFC 3279 section 2.3.1 | 30 RSAPublicKey RSAPublicKey
SubjectPublicKeyInfo | RFC 5280 section 4.1.2.7 | 30 algorithm algorithm, 03 bits:rsaBits subjectPublicKey
algorithm | RFC 5280 section 4.1.1.2 | 06 shown12 algorithm, 00? shown12 parameters
ecAlgorithm | RFC 5480 section 2.1.1 | 06 of:1.2.840.10045.2.1 algorithm, 06? shown12 namedCurve
rsaAlgorithm | RFC 8017 appendix A.1 | 06 of:1.2.840.113549.1.1 algorithm, 00? hidden parameters
dsaAlgorithm | RFC 3279 section 2.3.2 | 06 of:1.2.840.10040.4.1 algorithm, 30? Dss-Parms parameters
dhAlgorithm | PKCS #3 section 9 | 06 of:1.2.840.113549.1.3.1 algorithm, 30? DHParameter parameters
x942Algorithm | RFC 3279 section 2.3.3 | 06 of:1.2.840.10046.2.1 algorithm, 30? DomainParameters parameters
edwardsAlgorithm | RFC 8410 section 3: parameters are absent | 06 of:1.3.101 algorithm
DHParameter | PKCS #3 section 9 | 02 hidden prime, 02 version base, 02? short8 privateValueLength
RSAPublicKey | RFC 8017 appendix A.1.1 | 02 hidden modulus, 02 short8 publicExponent
signature | RFC 3279 section 2.2.3 | 02 hidden r, 02 hidden s
Dss-Parms | RFC 3279 section 2.3.2 | 02 hidden p, 02 hidden q, 02 hidden g
DomainParameters | RFC 3279 section 2.3.3 |
  02 hidden p, 02 hidden g, 02 hidden q, 02? hidden j, 30? hidden validationParms
ECParameters | RFC 3279 section 2.3.5 |
  02 version version, 30 field fieldID, 30 curveParameters curve, 04 point base, 02 hidden order,
  02? short8 cofactor
field | RFC 3279 section 2.3.5 | 06 of:1.2.840.10045.1 fieldType, 00 hidden parameters
curveParameters | RFC 3279 section 2.3.5 | 04 hidden a, 04 hidden b, 03? hidden seed
ContentInfo | RFC 5652 section 3 | 06 of:1.2.840.113549.1.7 contentType, A0? hidden content
encrypted | RFC 5958 section 3, with an algorithm of RFC 8018 appendix A |
  30 pbes encryptionAlgorithm, 04 hidden encryptedData
pbes | RFC 8018 appendix A | 06 of:1.2.840.113549.1.5 algorithm, 00? hidden parameters
encrypted12 | RFC 5958 section 3, with an algorithm of RFC 7292 appendix C |
  30 pbe encryptionAlgorithm, 04 hidden encryptedData
pbe | RFC 7292 appendix C | 06 of:1.2.840.113549.1.12.1 algorithm, 00? hidden parameters
digest | RFC 8017 appendix A.2.4 | 30 algorithm digestAlgorithm, 04 hidden digest
digest2 | RFC 8017 appendix A.2.4 | 30 sha2 digestAlgorithm, 04 hidden digest
sha2 | RFC 8017 appendix B.1 | 06 of:2.16.840.1.101.3.4.2 algorithm, 00? hidden parameters
digest1 | RFC 8017 appendix A.2.4 | 30 sha1 digestAlgorithm, 04 hidden digest
sha1 | RFC 8017 appendix B.1 | 06 of:1.3.14.3.2.26 algorithm, 00? hidden parameters
digest5 | RFC 8017 appendix A.2.4 | 30 md5 digestAlgorithm, 04 hidden digest
md5 | RFC 8017 appendix B.1 | 06 of:1.2.840.113549.2 algorithm, 00? hidden parameters
OCSPResponse | RFC 6960 section 4.2.1 | 0A version responseStatus, A0? response0 responseBytes
response0 | RFC 6960 section 4.2.1: an explicit tag | 30 response responseBytes
response | RFC 6960 section 4.2.1 | 06 of:1.3.6.1.5.5.7.48.1.1 responseType, 04 hidden response
TimeStampReq | RFC 3161 section 2.4.1 |
  02 version version, 30 digest messageImprint, 06? shown12 reqPolicy, 02? shown20 nonce, 01? version certReq,
  A0? extensions extensions
TimeStampResp | RFC 3161 section 2.4.2 | 30 status status, 30? ContentInfo timeStampToken
status | RFC 3161 section 2.4.2: PKIStatusInfo |
  02 version status, 30? hidden statusString, 03? hidden failInfo
OCSPRequest | RFC 6960 section 4.1.1 | 30 tbsRequest tbsRequest, A0? hidden optionalSignature
tbsRequest | RFC 6960 section 4.1.1 |
  A0? version0 version, A1? hidden requestorName, 30 requests requestList, A2? extensions0 requestExtensions
requests | RFC 6960 section 4.1.1 | 30* request1 Request
request1 | RFC 6960 section 4.1.1 | 30 certId reqCert, A0? extensions0 singleRequestExtensions
certId | RFC 6960 section 4.1.1 |
  30 algorithm hashAlgorithm, 04 hidden issuerNameHash, 04 hidden issuerKeyHash, 02 shown20 serialNumber
package | RFC 5958 section 2: one key at least | 30 any8 OneAsymmetricKey, 30* any8 OneAsymmetricKey
safe | RFC 7292 section 4.2 | 30 bag SafeBag, 30* bag SafeBag
bag | RFC 7292 section 4.2 |
  06 of:1.2.840.113549.1.12.10.1 bagId, A0 hidden bagValue, 31? hidden bagAttributes
oid | X.690 section 8.19 | 06 short12 namedCurve
"""
# The fields after an identifier: its name, what it begins with, and the structure that they are.
CASES = [("extnID", "2.5.29.14", "subjectKey"), ("extnID", "2.5.29.35", "authorityKey")]
# The forms, in the order that decides between those which as many bytes follow: the structures,
# what their parts can hold, what they are said to be, and the name of the root, if it is another.
# What is told by INTEGERs alone is closed: a key with 02 for 04 may be two INTEGERs.
PRIVATE, CLOSED, PUBLIC = "private", "closed", "public"
FORMS = """
ECPrivateKey | private | an EC private key (RFC 5915)
ec8 rsa8 dsa8 dh8 x942 octet8 any8 | private | PKCS #8 (RFC 5958) | PrivateKeyInfo
RSAPrivateKey | private | an RSA private key (RFC 8017)
DSAPrivateKey | private | a DSA private key
PFX | private | PKCS #12 (RFC 7292)
Certificate | public | a certificate (RFC 5280)
CertificationRequest | public | a certification request (RFC 2986)
CertificateList | public | a list of revoked certificates (RFC 5280)
ecPublic rsaPublic SubjectPublicKeyInfo | public | a public key (RFC 5280) | SubjectPublicKeyInfo
DHParameter | closed | Diffie-Hellman parameters (PKCS #3)
RSAPublicKey | closed | an RSA public key (RFC 8017)
signature | closed | an ECDSA signature (RFC 3279)
Dss-Parms | closed | DSA parameters (RFC 3279)
DomainParameters | closed | Diffie-Hellman parameters (RFC 3279)
ECParameters | public | the parameters of a curve (RFC 3279)
ContentInfo | closed | CMS or PKCS #7 (RFC 5652)
encrypted encrypted12 | closed | encrypted PKCS #8 (RFC 5958) | EncryptedPrivateKeyInfo
digest2 digest1 digest5 | closed | a digest (RFC 8017) | DigestInfo
OCSPResponse | closed | an OCSP response (RFC 6960)
TimeStampReq | closed | a time stamp query (RFC 3161)
TimeStampResp | closed | a time stamp reply (RFC 3161)
OCSPRequest | closed | an OCSP request (RFC 6960)
package | private | a package of private keys (RFC 5958) | AsymmetricKeyPackage
safe | private | the inside of PKCS #12 (RFC 7292) | SafeContents
oid | public | an identifier | namedCurve
"""


class Field:
    """A field of a structure."""

    def __init__(self, tag, presence, content, name):
        self.tag, self.presence, self.name = tag, presence, name
        self.kind = content.rstrip("0123456789") if content[:5] in ("shown", "short") else content
        self.most = int(content[5:]) if self.kind in ("shown", "short") else None
        self.arcs = arcs_of(content[3:]) if content.startswith("of:") else None
        self.whole = content[1:] if content.startswith("=") else None
        self.bits = content[5:] if content.startswith("bits:") else None
        self.inside = content if f"\n{content} | " in TABLE else None
        self.is_needed = presence == ""
        # whether the content says if an element is this field
        self.is_exact = bool(self.arcs) or self.kind in ("version", "short")

    def has_tag(self, first):
        """Returns whether an element with this tag can be this field."""
        return self.tag in (first, 0) or self.tag == 0x17 and first == 0x18

    def admits(self, content):
        """Returns whether a content can be of this field."""
        if self.arcs:
            return len(content) <= 12 and content.startswith(self.arcs)
        if self.kind == "version":
            return len(content) == 1
        return self.kind != "short" or len(content) <= self.most


def arcs_of(dotted):
    """Returns the bytes of an identifier's arcs (X.690 section 8.19)."""
    first, second, *others = map(int, dotted.split("."))
    out = b""
    for arc in [40 * first + second, *others]:
        digits = [arc & 127]
        while arc := arc >> 7:
            digits.insert(0, arc & 127 | 128)
        out += bytes(digits)
    return out


# The fields of each structure.
STRUCTURES = {}
for row in re.sub(r"\n  +", " ", TABLE).strip().splitlines():
    structure, _, fields = row.split(" | ")
    STRUCTURES[structure] = [
        Field(int(tag[:2], 16), tag[2:], content, name.replace("_", " "))
        for tag, content, name in map(str.split, fields.split(", "))]


def fields_after(name, content):
    """Returns the fields that come after an identifier with this name, or None."""
    return next((STRUCTURES[structure] for identifier, arcs, structure in CASES
                 if identifier == name and len(content) <= 12
                 and content.startswith(arcs_of(arcs))), None)


# What the whole of some bytes can be.
Form = namedtuple("Form", "structure name secrecy words root")
ALL = []
for row in FORMS.strip().splitlines():
    names, secrecy, words, *others = row.split(" | ")
    for structure in names.split():
        name, fields = (others or [structure])[0], STRUCTURES[structure]
        root = fields[0] if structure == "oid" else Field(0x30, "", structure, name)
        ALL.append(Form(structure, name, secrecy, words, root))
