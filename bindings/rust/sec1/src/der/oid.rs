//! Types that have an object identifier, with the names of the crate `const_oid`.

pub use super::asn1::{Arc, Arcs, ObjectIdentifier};
pub use super::{Error, Result};

/// A type with an identifier, such as that of a curve.
///
/// # Examples
///
/// ```
/// use sec1::der::oid::{AssociatedOid, ObjectIdentifier};
///
/// struct NistP256;
///
/// impl AssociatedOid for NistP256 {
///     const OID: ObjectIdentifier = ObjectIdentifier::new_unwrap("1.2.840.10045.3.1.7");
/// }
///
/// assert_eq!(NistP256::OID.to_string(), "1.2.840.10045.3.1.7");
/// ```
pub trait AssociatedOid {
    /// The identifier.
    const OID: ObjectIdentifier;
}

/// A value with an identifier.
///
/// # Examples
///
/// ```
/// use sec1::ALGORITHM_OID;
/// use sec1::der::oid::{AssociatedOid, DynAssociatedOid, ObjectIdentifier};
///
/// struct Ec;
///
/// impl AssociatedOid for Ec {
///     const OID: ObjectIdentifier = ALGORITHM_OID;
/// }
///
/// fn is_ec(key: &dyn DynAssociatedOid) -> bool {
///     key.oid() == ALGORITHM_OID
/// }
///
/// assert!(is_ec(&Ec));
/// ```
pub trait DynAssociatedOid {
    /// Returns the identifier.
    ///
    /// # Examples
    ///
    /// ```
    /// use sec1::ALGORITHM_OID;
    /// use sec1::der::oid::{AssociatedOid, DynAssociatedOid, ObjectIdentifier};
    ///
    /// struct Ec;
    ///
    /// impl AssociatedOid for Ec {
    ///     const OID: ObjectIdentifier = ALGORITHM_OID;
    /// }
    ///
    /// assert_eq!(Ec.oid(), ALGORITHM_OID);
    /// ```
    fn oid(&self) -> ObjectIdentifier;
}

impl<T: AssociatedOid> DynAssociatedOid for T {
    fn oid(&self) -> ObjectIdentifier {
        T::OID
    }
}
