//! Parameters of elliptic curves.

use crate::der::asn1::ObjectIdentifier;

/// The parameters of a curve (RFC 5480 section 2.1.1): its name.
///
/// # Examples
///
/// ```
/// use sec1::{EcParameters, der::asn1::ObjectIdentifier};
///
/// let curve = ObjectIdentifier::new("1.2.840.10045.3.1.7")?;
/// assert_eq!(EcParameters::from(curve).named_curve(), Some(curve));
/// # Ok::<(), sec1::der::Error>(())
/// ```
#[derive(Clone, Copy, Debug, Eq, PartialEq)]
pub enum EcParameters {
    /// The curve with this identifier.
    NamedCurve(ObjectIdentifier),
}

impl EcParameters {
    /// Returns the identifier of the curve.
    ///
    /// # Examples
    ///
    /// ```
    /// use sec1::{ALGORITHM_OID, EcParameters};
    ///
    /// assert_eq!(EcParameters::from(ALGORITHM_OID).named_curve(), Some(ALGORITHM_OID));
    /// ```
    pub fn named_curve(self) -> Option<ObjectIdentifier> {
        match self {
            Self::NamedCurve(identifier) => Some(identifier),
        }
    }
}

impl From<ObjectIdentifier> for EcParameters {
    fn from(identifier: ObjectIdentifier) -> EcParameters {
        EcParameters::NamedCurve(identifier)
    }
}
