//! Signatures of ECDSA.

use crate::der::{Error, ErrorKind, Result};
use crate::{raw, written};
#[cfg(feature = "alloc")]
use alloc::vec::Vec;

/// A signature of ECDSA: an Ecdsa-Sig-Value (RFC 3279 section 2.2.3). It isn't tested that its
/// numbers are below the order of a curve.
///
/// # Examples
///
/// ```
/// use sec1::Signature;
///
/// let read = Signature::from_der(&[0x30, 7, 2, 2, 0, 0x80, 2, 1, 1])?;
/// assert_eq!((read.r, read.s), (&[0, 0x80][..], &[1][..]));
/// // In fixed lengths, as other formats have the numbers.
/// let fixed = Signature { r: &[0, 0, 0x80], s: &[0, 0, 1] };
/// assert_eq!(fixed.write_der(&mut [0; 20])?, [0x30, 7, 2, 2, 0, 0x80, 2, 1, 1]);
/// # Ok::<(), sec1::der::Error>(())
/// ```
#[derive(Clone, Copy, Debug)]
pub struct Signature<'a> {
    /// The first number in base 256, with or without bytes 0 in front.
    pub r: &'a [u8],
    /// The second number.
    pub s: &'a [u8],
}

impl<'a> Signature<'a> {
    /// Reads a signature from its DER encoding, which is all of the bytes. A number has a byte 0 in
    /// front if bit 8 of the next byte is set.
    ///
    /// # Errors
    ///
    /// [`ErrorKind::Truncated`], `Tag`, `Length`, `TrailingData` or `Value` at the first fault from
    /// left to right. A number that is negative, or not in as few bytes as possible, is `Value`.
    ///
    /// # Examples
    ///
    /// ```
    /// use sec1::{Signature, der::ErrorKind};
    ///
    /// let error = Signature::from_der(&[0x30, 6, 2, 1, 0x80, 2, 1, 1]).unwrap_err();
    /// assert_eq!((error.kind(), error.position().map(u32::from)), (ErrorKind::Value, Some(4)));
    /// ```
    pub fn from_der(bytes: &'a [u8]) -> Result<Self> {
        let outside = |()| Error::of_kind(ErrorKind::Failed);
        let parts = raw::signature_read(bytes).map_err(|(status, at)| Error::at(status, at))?;
        let r = raw::part(bytes, parts.r).map_err(outside)?.unwrap_or_default();
        let s = raw::part(bytes, parts.s).map_err(outside)?.unwrap_or_default();
        Ok(Signature { r, s })
    }

    /// Writes the DER encoding at the beginning of a slice, and returns what was written.
    ///
    /// # Errors
    ///
    /// [`ErrorKind::Buffer`] if the slice is too short, and [`ErrorKind::Overlength`] if a number,
    /// or both together, are above 268,435,455 bytes.
    ///
    /// # Examples
    ///
    /// ```
    /// use sec1::Signature;
    ///
    /// let written = Signature { r: &[1], s: &[] }.write_der(&mut [0; 8])?.to_vec();
    /// assert_eq!(written, [0x30, 6, 2, 1, 1, 2, 1, 0]);
    /// # Ok::<(), sec1::der::Error>(())
    /// ```
    pub fn write_der<'b>(&self, buf: &'b mut [u8]) -> Result<&'b [u8]> {
        written::into_slice(buf, |out| raw::signature_write(self.r, self.s, out), Error::of)
    }

    /// Returns the DER encoding.
    ///
    /// # Errors
    ///
    /// [`ErrorKind::Overlength`], as [`write_der`](Self::write_der), and [`ErrorKind::Memory`] if
    /// there is no memory.
    ///
    /// # Examples
    ///
    /// ```
    /// use sec1::Signature;
    ///
    /// assert_eq!(Signature { r: &[0x80], s: &[1] }.to_der()?, [0x30, 7, 2, 2, 0, 0x80, 2, 1, 1]);
    /// # Ok::<(), sec1::der::Error>(())
    /// ```
    #[cfg(feature = "alloc")]
    pub fn to_der(&self) -> Result<Vec<u8>> {
        written::to_vec(|out| raw::signature_write(self.r, self.s, out), Error::of)
    }
}

impl Eq for Signature<'_> {}

/// Whether the numbers are the same, whatever bytes 0 are in front.
impl PartialEq for Signature<'_> {
    fn eq(&self, other: &Self) -> bool {
        number(self.r) == number(other.r) && number(self.s) == number(other.s)
    }
}

/// Returns the bytes of a number without bytes 0 in front.
fn number(mut bytes: &[u8]) -> &[u8] {
    while let [0, rest @ ..] = bytes {
        bytes = rest;
    }
    bytes
}
