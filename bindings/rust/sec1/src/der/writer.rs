//! Writers into slices.

use super::{Encode, Error, ErrorKind, Result};

/// What bytes are written to.
///
/// # Examples
///
/// ```
/// use sec1::der::{EncodeValue, Result, Writer, asn1::ObjectIdentifier};
///
/// // A writer that counts.
/// struct Count(usize);
///
/// impl Writer for Count {
///     fn write(&mut self, slice: &[u8]) -> Result<()> {
///         self.0 += slice.len();
///         Ok(())
///     }
/// }
///
/// let mut count = Count(0);
/// ObjectIdentifier::new("1.3.132.0.34")?.encode_value(&mut count)?;
/// assert_eq!(count.0, 5);
/// # Ok::<(), sec1::der::Error>(())
/// ```
pub trait Writer {
    /// Writes these bytes.
    ///
    /// # Errors
    ///
    /// An error if they can't be written.
    ///
    /// # Examples
    ///
    /// ```
    /// use sec1::der::{SliceWriter, Writer};
    ///
    /// let mut room = [0; 3];
    /// let mut writer = SliceWriter::new(&mut room);
    /// writer.write(&[5, 0])?;
    /// assert!(writer.write(&[5, 0]).is_err());
    /// assert_eq!(writer.finish()?, [5, 0]);
    /// # Ok::<(), sec1::der::Error>(())
    /// ```
    fn write(&mut self, slice: &[u8]) -> Result<()>;

    /// Writes one byte.
    ///
    /// # Errors
    ///
    /// An error if it can't be written.
    ///
    /// # Examples
    ///
    /// ```
    /// use sec1::der::{SliceWriter, Writer};
    ///
    /// let mut room = [0; 3];
    /// let mut writer = SliceWriter::new(&mut room);
    /// writer.write_byte(5)?;
    /// assert_eq!(writer.finish()?, [5]);
    /// # Ok::<(), sec1::der::Error>(())
    /// ```
    fn write_byte(&mut self, byte: u8) -> Result<()> {
        self.write(&[byte])
    }
}

/// A writer into a slice, from its beginning.
///
/// # Examples
///
/// ```
/// use sec1::der::{SliceWriter, asn1::ObjectIdentifier};
///
/// let mut room = [0; 20];
/// let mut writer = SliceWriter::new(&mut room);
/// writer.encode(&ObjectIdentifier::new("1.2")?)?;
/// writer.encode(&ObjectIdentifier::new("1.3")?)?;
/// assert_eq!(writer.finish()?, [6, 1, 0x2A, 6, 1, 0x2B]);
/// # Ok::<(), sec1::der::Error>(())
/// ```
pub struct SliceWriter<'a> {
    bytes: &'a mut [u8],
    position: usize,
}

impl<'a> SliceWriter<'a> {
    /// Returns a writer at the beginning of this slice.
    ///
    /// # Examples
    ///
    /// ```
    /// use sec1::der::SliceWriter;
    ///
    /// assert_eq!(SliceWriter::new(&mut [0; 20]).finish()?, []);
    /// # Ok::<(), sec1::der::Error>(())
    /// ```
    pub fn new(bytes: &'a mut [u8]) -> Self {
        SliceWriter { bytes, position: 0 }
    }

    /// Writes the encoding of a value.
    ///
    /// # Errors
    ///
    /// Those of [`Encode::encode_to_slice`].
    ///
    /// # Examples
    ///
    /// ```
    /// use sec1::der::{ErrorKind, SliceWriter, asn1::ObjectIdentifier};
    ///
    /// let mut room = [0; 5];
    /// let mut writer = SliceWriter::new(&mut room);
    /// writer.encode(&ObjectIdentifier::new("1.2")?)?;
    /// let error = writer.encode(&ObjectIdentifier::new("1.3")?).unwrap_err();
    /// assert_eq!(error.kind(), ErrorKind::Buffer);
    /// # Ok::<(), sec1::der::Error>(())
    /// ```
    pub fn encode<T: Encode + ?Sized>(&mut self, value: &T) -> Result<()> {
        let room = self.bytes.get_mut(self.position..).unwrap_or_default();
        let written = value.encode_to_slice(room)?.len();
        self.position = self.position.saturating_add(written);
        Ok(())
    }

    /// Borrows what was written.
    ///
    /// # Errors
    ///
    /// [`ErrorKind::Failed`], which isn't reached.
    ///
    /// # Examples
    ///
    /// ```
    /// use sec1::der::{SliceWriter, Writer};
    ///
    /// let mut room = [0; 20];
    /// let mut writer = SliceWriter::new(&mut room);
    /// writer.write(&[5, 0])?;
    /// assert_eq!(writer.finish()?, [5, 0]);
    /// # Ok::<(), sec1::der::Error>(())
    /// ```
    pub fn finish(self) -> Result<&'a [u8]> {
        self.bytes.get(..self.position).ok_or(Error::of_kind(ErrorKind::Failed))
    }
}

impl Writer for SliceWriter<'_> {
    fn write(&mut self, slice: &[u8]) -> Result<()> {
        let end = self.position.saturating_add(slice.len());
        let room = self.bytes.get_mut(self.position..end);
        room.ok_or(Error::of_kind(ErrorKind::Buffer))?.copy_from_slice(slice);
        self.position = end;
        Ok(())
    }
}
