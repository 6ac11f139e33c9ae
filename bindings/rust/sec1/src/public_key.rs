//! EC public keys with their curves.

use crate::der::asn1::ObjectIdentifier;
use crate::der::{self, ErrorKind};
#[cfg(feature = "pem")]
use crate::pem::LineEnding;
use crate::point::{EncodedPoint, ModulusSize};
use crate::raw::{self, Status};
use crate::written::{self, Written};
use crate::{Curve, Error, Result, pem};
#[cfg(feature = "pem")]
use alloc::string::String;
#[cfg(feature = "alloc")]
use alloc::vec::Vec;

/// A public key with its curve: a SubjectPublicKeyInfo whose algorithm is id-ecPublicKey (RFC 5480
/// section 2). It isn't tested that the point lies on the curve.
///
/// # Examples
///
/// ```
/// use sec1::consts::U32;
/// use sec1::{Curve, EcPublicKey};
///
/// let curve = Curve::new("P-256")?.identifier();
/// let mut room = [0; 100];
/// let der = EcPublicKey { curve, public_key: &[2; 33] }.write_der(&mut room)?;
/// let read = EcPublicKey::from_der(der)?;
/// assert_eq!(read, EcPublicKey { curve, public_key: &[2; 33] });
/// assert_eq!(read.point::<U32>()?.x(), Some(&[2; 32].into()));
/// # Ok::<(), sec1::Error>(())
/// ```
#[derive(Clone, Copy, Debug, Eq, PartialEq)]
pub struct EcPublicKey<'a> {
    /// The identifier of the curve.
    pub curve: ObjectIdentifier,
    /// The encoding of the point.
    pub public_key: &'a [u8],
}

impl<'a> EcPublicKey<'a> {
    /// Reads a key from its SubjectPublicKeyInfo in DER, which is all of the bytes.
    ///
    /// # Errors
    ///
    /// [`Error::Asn1`] with [`ErrorKind::Truncated`], `Tag`, `Length`, `TrailingData` or `Value` at
    /// the first fault from left to right, if the bytes aren't a SubjectPublicKeyInfo, and with
    /// [`ErrorKind::Curve`] if the algorithm isn't id-ecPublicKey with a curve of the table;
    /// [`Error::PointEncoding`] if the public key isn't the encoding of a point over its field.
    ///
    /// # Examples
    ///
    /// ```
    /// use sec1::EcPublicKey;
    ///
    /// assert!(EcPublicKey::from_der(&[0x30, 0]).is_err());
    /// ```
    pub fn from_der(bytes: &'a [u8]) -> Result<Self> {
        let outside = |()| der::Error::of_kind(ErrorKind::Failed);
        let parts = raw::public_key_read(bytes)
            .map_err(|(status, offset)| error_of(status, der::Error::at(status, offset)))?;
        let curve = raw::part(bytes, parts.curve).map_err(outside)?.unwrap_or_default();
        let public_key = raw::part(bytes, parts.public_key).map_err(outside)?.unwrap_or_default();
        Ok(EcPublicKey { curve: ObjectIdentifier::of_content(curve)?, public_key })
    }

    /// Reads a key, as [`from_der`](Self::from_der) does, from the first block of PEM in a text
    /// whose label is PUBLIC KEY. What is decoded, and borrowed by the key, is in `room`, which is
    /// as long as [`room_len`](crate::pem::room_len) says.
    ///
    /// # Errors
    ///
    /// [`Error::Asn1`] with [`ErrorKind::Pem`] if there is no such block, or it isn't whole, and
    /// with [`ErrorKind::Buffer`] if the room is too short; and those of `from_der`, with the
    /// offset in what the block encodes.
    ///
    /// # Examples
    ///
    /// ```
    /// use sec1::EcPublicKey;
    ///
    /// assert!(EcPublicKey::from_pem("-----BEGIN PUBLIC KEY-----", &mut [0; 60]).is_err());
    /// ```
    pub fn from_pem(text: &str, room: &'a mut [u8]) -> Result<Self> {
        Self::from_der(pem::decode(text, &[pem::PUBLIC_KEY], room)?.1)
    }

    /// Returns the key in PEM, with the label PUBLIC KEY.
    ///
    /// # Errors
    ///
    /// Those of [`to_der`](Self::to_der).
    ///
    /// # Examples
    ///
    /// ```
    /// use sec1::{Curve, EcPublicKey, LineEnding};
    ///
    /// let curve = Curve::new("P-256")?.identifier();
    /// let text = EcPublicKey { curve, public_key: &[2; 33] }.to_pem(LineEnding::LF)?;
    /// assert_eq!(text.lines().count(), 4);
    /// # Ok::<(), sec1::Error>(())
    /// ```
    #[cfg(feature = "pem")]
    pub fn to_pem(&self, line_ending: LineEnding) -> Result<String> {
        Ok(core::mem::take(&mut *pem::encode(pem::PUBLIC_KEY, &self.to_der()?, line_ending)?))
    }

    /// Returns the point. One in hybrid form is read by [`HybridPoint`](crate::point::HybridPoint)
    /// alone.
    ///
    /// # Errors
    ///
    /// [`Error::Asn1`] with [`ErrorKind::Curve`] if no curve of the table has the identifier;
    /// [`Error::PointEncoding`] if the public key isn't the encoding of a point whose coordinates
    /// have this size, or the field has another one.
    ///
    /// # Examples
    ///
    /// ```
    /// use sec1::consts::{U32, U48};
    /// use sec1::{Curve, EcPublicKey, Error};
    ///
    /// let key = EcPublicKey { curve: Curve::new("P-256")?.identifier(), public_key: &[3; 33] };
    /// assert!(key.point::<U32>()?.is_compressed());
    /// assert_eq!(key.point::<U48>(), Err(Error::PointEncoding));
    /// # Ok::<(), sec1::Error>(())
    /// ```
    pub fn point<Size: ModulusSize>(&self) -> Result<EncodedPoint<Size>> {
        match Curve::from_identifier(&self.curve)?.field_len() == Size::USIZE {
            true => EncodedPoint::from_bytes(self.public_key),
            false => Err(Error::PointEncoding),
        }
    }

    /// Writes the SubjectPublicKeyInfo at the beginning of a slice, and returns what was written.
    /// 158 bytes are room enough for each key.
    ///
    /// # Errors
    ///
    /// [`Error::Asn1`] with [`ErrorKind::Curve`] if no curve of the table has the identifier, and
    /// with [`ErrorKind::Buffer`] if the slice is too short; [`Error::PointEncoding`] if the public
    /// key isn't the encoding of a point over its field.
    ///
    /// # Examples
    ///
    /// ```
    /// use sec1::{Curve, EcPublicKey, Error};
    ///
    /// let curve = Curve::new("P-256")?.identifier();
    /// let der = EcPublicKey { curve, public_key: &[2; 33] }.write_der(&mut [0; 158])?.len();
    /// assert_eq!(der, 59);
    /// let refused = EcPublicKey { curve, public_key: &[1; 33] };
    /// assert_eq!(refused.write_der(&mut [0; 158]), Err(Error::PointEncoding));
    /// # Ok::<(), sec1::Error>(())
    /// ```
    pub fn write_der<'b>(&self, buf: &'b mut [u8]) -> Result<&'b [u8]> {
        written::into_slice(buf, |out| self.write(out), |it| error_of(it, der::Error::of(it)))
    }

    /// Returns the SubjectPublicKeyInfo.
    ///
    /// # Errors
    ///
    /// Those of [`write_der`](Self::write_der), but for `Buffer`; [`ErrorKind::Memory`] if there is
    /// no memory.
    ///
    /// # Examples
    ///
    /// ```
    /// use sec1::{Curve, EcPublicKey};
    ///
    /// let curve = Curve::new("P-256")?.identifier();
    /// assert_eq!(EcPublicKey { curve, public_key: &[2; 33] }.to_der()?.len(), 59);
    /// # Ok::<(), sec1::Error>(())
    /// ```
    #[cfg(feature = "alloc")]
    pub fn to_der(&self) -> Result<Vec<u8>> {
        written::to_vec(|out| self.write(out), |it| error_of(it, der::Error::of(it)))
    }

    /// Writes the SubjectPublicKeyInfo at the beginning of `out`.
    fn write(&self, out: &mut [u8]) -> Written {
        raw::public_key_write(self.curve.as_bytes(), self.public_key, out)
    }
}

/// Returns the error of a status, which is this one of DER if it isn't that of points.
fn error_of(status: Status, error: der::Error) -> Error {
    match status.get() == sec1_sys::SEC1_POINT_ENCODING {
        true => Error::PointEncoding,
        false => error.into(),
    }
}
