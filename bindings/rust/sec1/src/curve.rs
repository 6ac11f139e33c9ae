//! Named curves, which `sec1` doesn't have.

use crate::EcParameters;
use crate::der::asn1::ObjectIdentifier;
use crate::der::{Error, ErrorKind, Result};
use crate::raw;
use core::{fmt, str};
use sec1_sys::{SEC1_CURVE_NAME_MAX as NAME_MAX, SEC1_IDENTIFIER_CONTENT_MAX as CONTENT_MAX};

/// A curve of the library's table, which has the 34 curves over prime fields of SEC 2, ANSI X9.62
/// and RFC 5639.
///
/// # Examples
///
/// ```
/// use sec1::der::ErrorKind;
/// use sec1::{Curve, EcPrivateKey};
///
/// let curve = Curve::new("P-256")?;
/// assert_eq!((curve.name(), curve.field_len()), ("secp256r1", 32));
///
/// let key =
///     EcPrivateKey { private_key: &[7; 32], parameters: Some(curve.into()), public_key: None };
/// let named = key.parameters.map(Curve::try_from).transpose()?;
/// assert_eq!(named, Some(curve));
/// assert_eq!(Curve::new("P-255").unwrap_err().kind(), ErrorKind::Curve);
/// # Ok::<(), sec1::der::Error>(())
/// ```
#[derive(Clone, Copy, Eq, Hash, PartialEq)]
pub struct Curve {
    identifier: ObjectIdentifier,
    // The name, followed by zeros.
    name: [u8; NAME_MAX],
    name_len: u8,
    field_len: u8,
}

impl Curve {
    /// Returns the curve with this name: that of SEC 2 (`secp256r1`), FIPS 186-4 (`P-256`), ANSI
    /// X9.62 (`prime256v1`) or RFC 5639. The case of letters counts.
    ///
    /// # Errors
    ///
    /// [`ErrorKind::Curve`] if no curve of the table has the name.
    ///
    /// # Examples
    ///
    /// ```
    /// use sec1::Curve;
    ///
    /// assert_eq!(Curve::new("P-384"), Curve::new("secp384r1"));
    /// assert!(Curve::new("p-384").is_err());
    /// ```
    pub fn new(name: &str) -> Result<Self> {
        let mut content = [0; CONTENT_MAX];
        let len = raw::curve_from_name(name, &mut content).map_err(Error::of)?;
        let content = content.get(..len).ok_or(Error::of_kind(ErrorKind::Failed))?;
        Self::from_identifier(&ObjectIdentifier::from_bytes(content)?)
    }

    /// Returns the curve with this identifier.
    ///
    /// # Errors
    ///
    /// [`ErrorKind::Curve`] if no curve of the table has it.
    ///
    /// # Examples
    ///
    /// ```
    /// use sec1::{ALGORITHM_OID, Curve, der::asn1::ObjectIdentifier};
    ///
    /// let curve = Curve::from_identifier(&ObjectIdentifier::new("1.3.132.0.10")?)?;
    /// assert_eq!(curve.name(), "secp256k1");
    /// assert!(Curve::from_identifier(&ALGORITHM_OID).is_err());
    /// # Ok::<(), sec1::der::Error>(())
    /// ```
    pub fn from_identifier(identifier: &ObjectIdentifier) -> Result<Self> {
        let content = identifier.as_bytes();
        let mut name = [0; NAME_MAX];
        // The length counts the byte 0 at the end.
        let name_len = raw::curve_name(content, &mut name).map_err(Error::of)?.saturating_sub(1);
        let field_len = raw::curve_field_len(content).map_err(Error::of)?;
        let small = |len: usize| u8::try_from(len).map_err(|_| Error::of_kind(ErrorKind::Failed));
        let (name_len, field_len) = (small(name_len)?, small(field_len)?);
        Ok(Curve { identifier: *identifier, name, name_len, field_len })
    }

    /// Returns the identifier.
    ///
    /// # Examples
    ///
    /// ```
    /// use sec1::Curve;
    ///
    /// assert_eq!(Curve::new("P-521")?.identifier().to_string(), "1.3.132.0.35");
    /// # Ok::<(), sec1::der::Error>(())
    /// ```
    pub fn identifier(&self) -> ObjectIdentifier {
        self.identifier
    }

    /// Returns the name: that of SEC 2, or of ANSI X9.62 or RFC 5639 for a curve that isn't there.
    ///
    /// # Examples
    ///
    /// ```
    /// use sec1::Curve;
    ///
    /// assert_eq!(Curve::new("prime256v1")?.name(), "secp256r1");
    /// # Ok::<(), sec1::der::Error>(())
    /// ```
    pub fn name(&self) -> &str {
        let name = self.name.get(..usize::from(self.name_len)).unwrap_or_default();
        str::from_utf8(name).unwrap_or_default()
    }

    /// Returns the length of a field element in bytes.
    ///
    /// # Examples
    ///
    /// ```
    /// use sec1::Curve;
    ///
    /// assert_eq!(Curve::new("P-521")?.field_len(), 66);
    /// # Ok::<(), sec1::der::Error>(())
    /// ```
    pub fn field_len(&self) -> usize {
        usize::from(self.field_len)
    }
}

impl str::FromStr for Curve {
    type Err = Error;

    fn from_str(name: &str) -> Result<Self> {
        Self::new(name)
    }
}

impl TryFrom<ObjectIdentifier> for Curve {
    type Error = Error;

    fn try_from(identifier: ObjectIdentifier) -> Result<Self> {
        Self::from_identifier(&identifier)
    }
}

impl TryFrom<EcParameters> for Curve {
    type Error = Error;

    fn try_from(parameters: EcParameters) -> Result<Self> {
        match parameters {
            EcParameters::NamedCurve(identifier) => Self::from_identifier(&identifier),
        }
    }
}

impl From<Curve> for ObjectIdentifier {
    fn from(curve: Curve) -> ObjectIdentifier {
        curve.identifier
    }
}

impl From<Curve> for EcParameters {
    fn from(curve: Curve) -> EcParameters {
        EcParameters::NamedCurve(curve.identifier)
    }
}

impl fmt::Display for Curve {
    fn fmt(&self, f: &mut fmt::Formatter<'_>) -> fmt::Result {
        f.write_str(self.name())
    }
}

impl fmt::Debug for Curve {
    fn fmt(&self, f: &mut fmt::Formatter<'_>) -> fmt::Result {
        write!(f, "Curve({self})")
    }
}
