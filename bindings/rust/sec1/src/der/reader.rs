//! Readers over slices.

use super::{Decode, Error, ErrorKind, Header, Length, Result, Tag};

mod sealed {
    use super::{Length, Result};

    /// What this crate needs of a reader.
    pub trait Input<'r>: Sized {
        /// Borrows all of the bytes, including those that were read.
        fn input(&self) -> &'r [u8];

        /// Returns a reader at the same position, whose bytes end after so many more.
        fn to_content(&self, len: Length) -> Result<Self>;
    }
}

pub(super) use sealed::Input;

/// A position in some bytes. Only [`SliceReader`] implements it.
///
/// # Examples
///
/// ```
/// use sec1::der::{Reader, SliceReader, asn1::ObjectIdentifier};
/// use sec1::EcPrivateKey;
///
/// // A key after an identifier.
/// let mut reader = SliceReader::new(&[6, 1, 0x2A, 0x30, 6, 2, 1, 1, 4, 1, 9])?;
/// let identifier: ObjectIdentifier = reader.decode()?;
/// let key: EcPrivateKey<'_> = reader.decode()?;
/// reader.finish()?;
/// assert_eq!((identifier.to_string().as_str(), key.private_key), ("1.2", &[9][..]));
/// # Ok::<(), sec1::der::Error>(())
/// ```
pub trait Reader<'r>: Clone + Input<'r> {
    /// Returns the number of all bytes.
    ///
    /// # Examples
    ///
    /// ```
    /// use sec1::der::{Reader, SliceReader};
    ///
    /// assert_eq!(u32::from(SliceReader::new(&[5, 0])?.input_len()), 2);
    /// # Ok::<(), sec1::der::Error>(())
    /// ```
    fn input_len(&self) -> Length;

    /// Returns the number of bytes that were read.
    ///
    /// # Examples
    ///
    /// ```
    /// use sec1::der::{Reader, SliceReader};
    ///
    /// assert_eq!(u32::from(SliceReader::new(&[5, 0])?.position()), 0);
    /// # Ok::<(), sec1::der::Error>(())
    /// ```
    fn position(&self) -> Length;

    /// Returns the number of bytes that haven't been read.
    ///
    /// # Examples
    ///
    /// ```
    /// use sec1::der::{Reader, SliceReader};
    ///
    /// let mut reader = SliceReader::new(&[5, 0, 7])?;
    /// reader.read_slice(2_usize.try_into()?)?;
    /// assert_eq!(u32::from(reader.remaining_len()), 1);
    /// # Ok::<(), sec1::der::Error>(())
    /// ```
    fn remaining_len(&self) -> Length;

    /// Returns `true` if all bytes were read.
    ///
    /// # Examples
    ///
    /// ```
    /// use sec1::der::{Reader, SliceReader};
    ///
    /// assert!(SliceReader::new(&[])?.is_finished());
    /// # Ok::<(), sec1::der::Error>(())
    /// ```
    fn is_finished(&self) -> bool {
        self.remaining_len().is_zero()
    }

    /// Reads and borrows this number of bytes.
    ///
    /// # Errors
    ///
    /// [`ErrorKind::Truncated`] if there are fewer. On an error the reader is unchanged.
    ///
    /// # Examples
    ///
    /// ```
    /// use sec1::der::{Reader, SliceReader};
    ///
    /// let mut reader = SliceReader::new(&[5, 0, 7])?;
    /// assert_eq!(reader.read_slice(2_usize.try_into()?)?, [5, 0]);
    /// assert!(reader.read_slice(2_usize.try_into()?).is_err());
    /// # Ok::<(), sec1::der::Error>(())
    /// ```
    fn read_slice(&mut self, len: Length) -> Result<&'r [u8]>;

    /// Returns the error of this kind at the position of the reader.
    ///
    /// # Examples
    ///
    /// ```
    /// use sec1::der::{ErrorKind, Reader, SliceReader};
    ///
    /// let mut reader = SliceReader::new(&[5, 0])?;
    /// reader.read_byte()?;
    /// let error = reader.error(ErrorKind::Value);
    /// assert_eq!(error.position().map(u32::from), Some(1));
    /// # Ok::<(), sec1::der::Error>(())
    /// ```
    fn error(&mut self, kind: ErrorKind) -> Error {
        kind.at(self.position())
    }

    /// Returns the next byte, if there is one, and doesn't read it.
    ///
    /// # Examples
    ///
    /// ```
    /// use sec1::der::{Reader, SliceReader};
    ///
    /// assert_eq!(SliceReader::new(&[5, 0])?.peek_byte(), Some(5));
    /// assert_eq!(SliceReader::new(&[])?.peek_byte(), None);
    /// # Ok::<(), sec1::der::Error>(())
    /// ```
    fn peek_byte(&self) -> Option<u8> {
        self.clone().read_byte().ok()
    }

    /// Returns the tag of the next element, and doesn't read it.
    ///
    /// # Errors
    ///
    /// [`ErrorKind::Truncated`] if no bytes are left, and [`ErrorKind::Tag`] if no element has this
    /// tag.
    ///
    /// # Examples
    ///
    /// ```
    /// use sec1::der::{Reader, SliceReader, Tag};
    ///
    /// assert_eq!(SliceReader::new(&[5, 0])?.peek_tag(), Ok(Tag::Null));
    /// # Ok::<(), sec1::der::Error>(())
    /// ```
    fn peek_tag(&self) -> Result<Tag> {
        self.peek_byte().ok_or(ErrorKind::Truncated.at(self.position()))?.try_into()
    }

    /// Reads one byte.
    ///
    /// # Errors
    ///
    /// [`ErrorKind::Truncated`] if there is none.
    ///
    /// # Examples
    ///
    /// ```
    /// use sec1::der::{Reader, SliceReader};
    ///
    /// assert_eq!(SliceReader::new(&[5, 0])?.read_byte(), Ok(5));
    /// # Ok::<(), sec1::der::Error>(())
    /// ```
    fn read_byte(&mut self) -> Result<u8> {
        let byte = self.read_slice(Length::ONE)?;
        byte.first().copied().ok_or(Error::of_kind(ErrorKind::Failed))
    }

    /// Fills a slice with the next bytes, and returns it.
    ///
    /// # Errors
    ///
    /// Those of [`read_slice`](Self::read_slice).
    ///
    /// # Examples
    ///
    /// ```
    /// use sec1::der::{Reader, SliceReader};
    ///
    /// assert_eq!(SliceReader::new(&[5, 0, 7])?.read_into(&mut [0; 2])?, [5, 0]);
    /// # Ok::<(), sec1::der::Error>(())
    /// ```
    fn read_into<'o>(&mut self, buf: &'o mut [u8]) -> Result<&'o [u8]> {
        buf.copy_from_slice(self.read_slice(buf.len().try_into()?)?);
        Ok(buf)
    }

    /// Reads and borrows the next element, with its header.
    ///
    /// # Errors
    ///
    /// Those of [`Header::decode`]. On an error the reader is unchanged.
    ///
    /// # Examples
    ///
    /// ```
    /// use sec1::der::{Reader, SliceReader};
    ///
    /// assert_eq!(SliceReader::new(&[4, 1, 9, 5, 0])?.tlv_bytes()?, [4, 1, 9]);
    /// # Ok::<(), sec1::der::Error>(())
    /// ```
    fn tlv_bytes(&mut self) -> Result<&'r [u8]> {
        let mut ahead = self.clone();
        let header = Header::decode(&mut ahead)?;
        let bytes = header.element(&mut ahead)?;
        *self = ahead;
        Ok(bytes)
    }

    /// Reads this number of bytes by a function, whose reader ends after them.
    ///
    /// # Errors
    ///
    /// [`ErrorKind::Truncated`] if there are fewer, those of the function, and
    /// [`ErrorKind::TrailingData`] if it leaves some of them. On an error the reader is unchanged.
    ///
    /// # Examples
    ///
    /// ```
    /// use sec1::der::{Error, Length, Reader, SliceReader};
    ///
    /// let mut reader = SliceReader::new(&[5, 0, 7])?;
    /// assert_eq!(reader.read_nested(Length::ONE, |reader| reader.read_byte())?, 5);
    /// assert!(reader.read_nested(Length::new(2), |reader| reader.read_byte()).is_err());
    /// # Ok::<(), Error>(())
    /// ```
    fn read_nested<T, F, E>(&mut self, len: Length, f: F) -> Result<T, E>
    where
        F: FnOnce(&mut Self) -> Result<T, E>,
        E: From<Error>,
    {
        let mut content = self.to_content(len)?;
        let value = f(&mut content)?;
        content.finish()?;
        self.read_slice(len)?;
        Ok(value)
    }

    /// Reads the content of the next element, a SEQUENCE, by a function.
    ///
    /// # Errors
    ///
    /// Those of [`Header::decode`] and of [`read_nested`](Self::read_nested), and
    /// [`ErrorKind::Tag`] if the element isn't a SEQUENCE. On an error the reader is unchanged.
    ///
    /// # Examples
    ///
    /// ```
    /// use sec1::der::{Error, Reader, SliceReader, asn1::ObjectIdentifier};
    ///
    /// let mut reader = SliceReader::new(&[0x30, 3, 6, 1, 0x2A])?;
    /// let identifier = reader.sequence(|reader| reader.decode::<ObjectIdentifier>())?;
    /// assert_eq!(identifier.to_string(), "1.2");
    /// # Ok::<(), Error>(())
    /// ```
    fn sequence<F, T, E>(&mut self, f: F) -> Result<T, E>
    where
        F: FnOnce(&mut Self) -> Result<T, E>,
        E: From<Error>,
    {
        let mut ahead = self.clone();
        let header = Header::decode(&mut ahead)?;
        header.tag().assert_eq(Tag::Sequence).map_err(|_| self.error(ErrorKind::Tag))?;
        let value = ahead.read_nested(header.length(), f)?;
        *self = ahead;
        Ok(value)
    }

    /// Reads a value from the next element.
    ///
    /// # Errors
    ///
    /// Those of [`Decode::decode`]. On an error the reader is unchanged.
    ///
    /// # Examples
    ///
    /// ```
    /// use sec1::der::{Reader, SliceReader, asn1::AnyRef};
    ///
    /// let mut reader = SliceReader::new(&[5, 0, 4, 1, 9])?;
    /// assert_eq!(reader.decode::<AnyRef<'_>>()?.value(), []);
    /// assert_eq!(reader.decode::<AnyRef<'_>>()?.value(), [9]);
    /// # Ok::<(), sec1::der::Error>(())
    /// ```
    fn decode<T: Decode<'r>>(&mut self) -> Result<T, T::Error> {
        T::decode(self)
    }

    /// Checks that all bytes were read.
    ///
    /// # Errors
    ///
    /// [`ErrorKind::TrailingData`] if some weren't.
    ///
    /// # Examples
    ///
    /// ```
    /// use sec1::der::{ErrorKind, Reader, SliceReader};
    ///
    /// assert_eq!(SliceReader::new(&[])?.finish(), Ok(()));
    /// let error = SliceReader::new(&[5, 0])?.finish().unwrap_err();
    /// assert_eq!(error.kind(), ErrorKind::TrailingData);
    /// # Ok::<(), sec1::der::Error>(())
    /// ```
    fn finish(self) -> Result<()> {
        match self.is_finished() {
            true => Ok(()),
            false => Err(Error::new(ErrorKind::TrailingData, self.position())),
        }
    }
}

/// A reader over a slice.
///
/// # Examples
///
/// ```
/// use sec1::der::{Reader, SliceReader};
///
/// let mut reader = SliceReader::new(&[5, 0])?;
/// assert_eq!(reader.read_slice(reader.remaining_len())?, [5, 0]);
/// assert!(reader.is_finished());
/// # Ok::<(), sec1::der::Error>(())
/// ```
#[derive(Clone)]
pub struct SliceReader<'r> {
    input: &'r [u8],
    len: Length,
    position: Length,
}

impl<'r> SliceReader<'r> {
    /// Returns a reader at the beginning of these bytes.
    ///
    /// # Errors
    ///
    /// [`ErrorKind::Overlength`] if there are more than 4,294,967,295 of them.
    ///
    /// # Examples
    ///
    /// ```
    /// use sec1::der::{Reader, SliceReader};
    ///
    /// assert_eq!(u32::from(SliceReader::new(&[5, 0])?.remaining_len()), 2);
    /// # Ok::<(), sec1::der::Error>(())
    /// ```
    pub fn new(input: &'r [u8]) -> Result<Self> {
        Ok(SliceReader { input, len: input.len().try_into()?, position: Length::default() })
    }
}

impl<'r> Input<'r> for SliceReader<'r> {
    #[inline]
    fn input(&self) -> &'r [u8] {
        self.input
    }

    fn to_content(&self, len: Length) -> Result<Self> {
        let end = self.position.plus(len)?;
        let input = self.input.get(..usize::try_from(end)?);
        let input = input.ok_or(Error::of_kind(ErrorKind::Truncated))?;
        Ok(SliceReader { input, len: end, position: self.position })
    }
}

impl<'r> Reader<'r> for SliceReader<'r> {
    fn input_len(&self) -> Length {
        self.len
    }

    fn position(&self) -> Length {
        self.position
    }

    fn remaining_len(&self) -> Length {
        self.len.saturating_sub(self.position)
    }

    fn read_slice(&mut self, len: Length) -> Result<&'r [u8]> {
        let (start, count) = (usize::try_from(self.position)?, usize::try_from(len)?);
        let next = self.input.get(start..).and_then(|rest| rest.get(..count));
        let bytes = next.ok_or(Error::of_kind(ErrorKind::Truncated))?;
        self.position = self.position.saturating_add(len);
        Ok(bytes)
    }
}
