//! Object identifiers (X.690 section 8.19), octet strings, bit strings, numbers, and elements with
//! any tag.

mod any;
mod arcs;
mod integer;
mod strings;

pub use any::AnyRef;
pub use arcs::{Arc, Arcs};
pub use strings::{BitStringRef, OctetStringRef};

use super::{Error, ErrorKind, Result};
use crate::raw;
use core::{fmt, str};
use sec1_sys::{SEC1_IDENTIFIER_CONTENT_MAX as CONTENT_MAX, SEC1_IDENTIFIER_TEXT_MAX as TEXT_MAX};

/// An object identifier (X.690 section 8.19), whose content has 1 to 39 bytes.
///
/// # Examples
///
/// ```
/// use sec1::der::asn1::ObjectIdentifier;
///
/// let curve = ObjectIdentifier::new("1.2.840.10045.3.1.7")?;
/// assert_eq!(curve.as_bytes(), [0x2A, 0x86, 0x48, 0xCE, 0x3D, 3, 1, 7]);
/// assert_eq!(ObjectIdentifier::from_bytes(curve.as_bytes()), Ok(curve));
/// assert_eq!(curve.to_string(), "1.2.840.10045.3.1.7");
/// assert!(ObjectIdentifier::new("1.40").is_err());
/// # Ok::<(), sec1::der::Error>(())
/// ```
#[derive(Clone, Copy, Eq, Hash, Ord, PartialEq, PartialOrd)]
pub struct ObjectIdentifier {
    // The bytes after the first `len` are 0.
    content: [u8; CONTENT_MAX],
    len: u8,
}

impl ObjectIdentifier {
    /// Returns the identifier with this dotted text.
    ///
    /// # Errors
    ///
    /// [`ErrorKind::Value`] if the text isn't an identifier's, or its content has more than 39
    /// bytes.
    ///
    /// # Examples
    ///
    /// ```
    /// use sec1::der::asn1::ObjectIdentifier;
    ///
    /// assert!(ObjectIdentifier::new("2.999").is_ok());
    /// assert!(ObjectIdentifier::new("2.0999").is_err());
    /// ```
    pub fn new(text: &str) -> Result<Self> {
        let mut content = [0; CONTENT_MAX];
        let len = raw::identifier_from_text(text, &mut content).map_err(Error::of)?;
        let len = u8::try_from(len).map_err(|_| Error::of_kind(ErrorKind::Failed))?;
        Ok(ObjectIdentifier { content, len })
    }

    /// Returns the identifier with this dotted text, for constants.
    ///
    /// # Panics
    ///
    /// Where [`new`](Self::new) returns an error: in a constant, that is when it is compiled.
    ///
    /// # Examples
    ///
    /// ```
    /// use sec1::der::asn1::ObjectIdentifier;
    ///
    /// const P256: ObjectIdentifier = ObjectIdentifier::new_unwrap("1.2.840.10045.3.1.7");
    /// assert_eq!(ObjectIdentifier::new("1.2.840.10045.3.1.7"), Ok(P256));
    /// ```
    ///
    /// ```compile_fail
    /// use sec1::der::asn1::ObjectIdentifier;
    ///
    /// const NONE: ObjectIdentifier = ObjectIdentifier::new_unwrap("1.40");
    /// ```
    #[allow(clippy::panic)]
    pub const fn new_unwrap(text: &str) -> Self {
        match arcs::content_of(text.as_bytes()) {
            Some((content, len)) => ObjectIdentifier { content, len },
            None => panic!("not the text of an object identifier"),
        }
    }

    /// Returns the identifier with these arcs.
    ///
    /// # Errors
    ///
    /// [`ErrorKind::Value`] if no identifier has them, or its content has more than 39 bytes.
    ///
    /// # Examples
    ///
    /// ```
    /// use sec1::ALGORITHM_OID;
    /// use sec1::der::asn1::ObjectIdentifier;
    ///
    /// assert_eq!(ObjectIdentifier::from_arcs([1, 2, 840, 10045, 2, 1]), Ok(ALGORITHM_OID));
    /// assert!(ObjectIdentifier::from_arcs([1, 40]).is_err());
    /// ```
    pub fn from_arcs(arcs: impl IntoIterator<Item = Arc>) -> Result<Self> {
        let content = arcs::content_of_arcs(arcs.into_iter());
        let (content, len) = content.ok_or(Error::of_kind(ErrorKind::Value))?;
        Ok(ObjectIdentifier { content, len })
    }

    /// Returns the identifier with this content.
    ///
    /// # Errors
    ///
    /// [`ErrorKind::Value`] if the bytes aren't the content of an identifier.
    ///
    /// # Examples
    ///
    /// ```
    /// use sec1::der::asn1::ObjectIdentifier;
    ///
    /// assert_eq!(ObjectIdentifier::from_bytes(&[0x2A])?.to_string(), "1.2");
    /// assert!(ObjectIdentifier::from_bytes(&[]).is_err());
    /// # Ok::<(), sec1::der::Error>(())
    /// ```
    pub fn from_bytes(content: &[u8]) -> Result<Self> {
        raw::identifier_check(content).map_err(Error::of)?;
        Self::of_content(content)
    }

    /// Copies a content that the library has accepted.
    pub(crate) fn of_content(accepted: &[u8]) -> Result<Self> {
        let failed = Error::of_kind(ErrorKind::Failed);
        let mut content = [0; CONTENT_MAX];
        let len = u8::try_from(accepted.len()).map_err(|_| failed)?;
        content.get_mut(..accepted.len()).ok_or(failed)?.copy_from_slice(accepted);
        Ok(ObjectIdentifier { content, len })
    }

    /// Borrows the content.
    ///
    /// # Examples
    ///
    /// ```
    /// use sec1::der::asn1::ObjectIdentifier;
    ///
    /// assert_eq!(ObjectIdentifier::new("1.2")?.as_bytes(), [0x2A]);
    /// # Ok::<(), sec1::der::Error>(())
    /// ```
    #[inline]
    pub fn as_bytes(&self) -> &[u8] {
        self.content.get(..usize::from(self.len)).unwrap_or_default()
    }

    /// Returns the arcs, which are the numbers of the dotted text.
    ///
    /// # Examples
    ///
    /// ```
    /// use sec1::der::asn1::ObjectIdentifier;
    ///
    /// const SHA256: ObjectIdentifier = ObjectIdentifier::new_unwrap("2.16.840.1.101.3.4.2.1");
    /// assert!(SHA256.arcs().eq([2, 16, 840, 1, 101, 3, 4, 2, 1]));
    /// ```
    pub fn arcs(&self) -> Arcs<'_> {
        Arcs::new(self.as_bytes())
    }

    /// Returns the arc at this index, or `None` from the number of arcs on.
    ///
    /// # Examples
    ///
    /// ```
    /// use sec1::ALGORITHM_OID;
    ///
    /// assert_eq!((ALGORITHM_OID.arc(2), ALGORITHM_OID.arc(6)), (Some(840), None));
    /// ```
    pub fn arc(&self, index: usize) -> Option<Arc> {
        self.arcs().nth(index)
    }

    /// Returns the number of arcs, which is at least 2.
    ///
    /// # Examples
    ///
    /// ```
    /// use sec1::ALGORITHM_OID;
    ///
    /// assert_eq!(ALGORITHM_OID.len(), 6);
    /// ```
    #[allow(clippy::len_without_is_empty)]
    pub fn len(&self) -> usize {
        self.arcs().count()
    }
}

impl AsRef<[u8]> for ObjectIdentifier {
    fn as_ref(&self) -> &[u8] {
        self.as_bytes()
    }
}

impl str::FromStr for ObjectIdentifier {
    type Err = Error;

    fn from_str(text: &str) -> Result<Self> {
        Self::new(text)
    }
}

impl TryFrom<&[u8]> for ObjectIdentifier {
    type Error = Error;

    fn try_from(content: &[u8]) -> Result<Self> {
        Self::from_bytes(content)
    }
}

impl fmt::Display for ObjectIdentifier {
    fn fmt(&self, f: &mut fmt::Formatter<'_>) -> fmt::Result {
        let mut text = [0; TEXT_MAX];
        let len = raw::identifier_to_text(self.as_bytes(), &mut text).map_err(|_| fmt::Error)?;
        // The length counts the byte 0 at the end.
        let digits = text.get(..len).and_then(<[u8]>::split_last).ok_or(fmt::Error)?.1;
        f.write_str(str::from_utf8(digits).map_err(|_| fmt::Error)?)
    }
}

impl fmt::Debug for ObjectIdentifier {
    fn fmt(&self, f: &mut fmt::Formatter<'_>) -> fmt::Result {
        write!(f, "ObjectIdentifier({self})")
    }
}
