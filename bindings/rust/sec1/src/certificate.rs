//! The public key in a certificate (RFC 5280 section 4.1).

use crate::der::{Error, ErrorKind, Result};
use crate::raw;

/// Borrows the SubjectPublicKeyInfo in a certificate, which is all of the bytes: the whole element
/// of the public key with its algorithm. No signature is verified, and no name, time or extension is
/// judged.
///
/// # Errors
///
/// [`ErrorKind::Truncated`], `Tag`, `Length`, `TrailingData` or `Value` at the first fault from left
/// to right, if the bytes aren't a certificate.
///
/// # Examples
///
/// ```
/// use sec1::{certificate_public_key, der::ErrorKind};
///
/// // The first component, at offset 2, isn't a SEQUENCE.
/// let error = certificate_public_key(&[0x30, 3, 2, 1, 1]).unwrap_err();
/// assert_eq!(error.kind(), ErrorKind::Tag);
/// assert_eq!(error.position().map(u32::from), Some(2));
/// ```
pub fn certificate_public_key(bytes: &[u8]) -> Result<&[u8]> {
    let info =
        raw::certificate_public_key(bytes).map_err(|(status, offset)| Error::at(status, offset))?;
    let info = raw::part(bytes, info).map_err(|()| Error::of_kind(ErrorKind::Failed))?;
    info.ok_or(Error::of_kind(ErrorKind::Failed))
}
