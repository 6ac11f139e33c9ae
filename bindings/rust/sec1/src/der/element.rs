//! Elements and trees of DER, for programs that read documents other than keys.

use super::{Error, ErrorKind, Result};
use crate::raw;
use core::fmt;

/// An element of DER (X.690 section 8.1), borrowed from the beginning of some bytes. Its `Debug`
/// leaves the content out.
///
/// The crate `der` has other names for this.
///
/// # Examples
///
/// ```
/// use sec1::EcPrivateKey;
/// use sec1::der::{Element, Result};
///
/// // A key within a container: the content of an octet string after an integer.
/// let bytes = [2, 1, 0, 4, 8, 0x30, 6, 2, 1, 1, 4, 1, 9];
/// let (version, rest) = Element::read(&bytes)?;
/// let (wrapped, rest) = Element::read(rest)?;
/// assert_eq!((version.content(), wrapped.tag(), rest), (&[0][..], 4, &[][..]));
/// assert_eq!(EcPrivateKey::try_from(wrapped.content())?.private_key, [9]);
/// # Ok::<(), sec1::Error>(())
/// ```
#[derive(Clone, Copy, Eq, PartialEq)]
pub struct Element<'a> {
    tag: u8,
    content: &'a [u8],
}

impl<'a> Element<'a> {
    /// Reads the element at the beginning of the bytes, with any content, and returns it and the
    /// bytes after it.
    ///
    /// # Errors
    ///
    /// [`ErrorKind::Tag`] or [`ErrorKind::Length`] if the bytes don't begin with a header of DER,
    /// and [`ErrorKind::Truncated`] if they end inside the header or the content.
    ///
    /// # Examples
    ///
    /// ```
    /// use sec1::der::{Element, ErrorKind};
    ///
    /// let (element, rest) = Element::read(&[4, 1, 9, 5, 0])?;
    /// assert_eq!((element.content(), rest), (&[9][..], &[5, 0][..]));
    /// assert_eq!(Element::read(&[4, 2, 9]).unwrap_err().kind(), ErrorKind::Truncated);
    /// # Ok::<(), sec1::der::Error>(())
    /// ```
    pub fn read(bytes: &'a [u8]) -> Result<(Element<'a>, &'a [u8])> {
        let (header_len, content_len) = raw::element_read(bytes).map_err(Error::of)?;
        let failed = Error::of_kind(ErrorKind::Failed);
        let (header, behind) = bytes.split_at_checked(header_len).ok_or(failed)?;
        let (content, rest) = behind.split_at_checked(content_len).ok_or(failed)?;
        let tag = *header.first().ok_or(failed)?;
        Ok((Element { tag, content }, rest))
    }

    /// Returns the tag, which is the first byte.
    ///
    /// # Examples
    ///
    /// ```
    /// use sec1::der::Element;
    ///
    /// assert_eq!(Element::read(&[4, 1, 9])?.0.tag(), 4);
    /// # Ok::<(), sec1::der::Error>(())
    /// ```
    pub fn tag(&self) -> u8 {
        self.tag
    }

    /// Borrows the content.
    ///
    /// # Examples
    ///
    /// ```
    /// use sec1::der::Element;
    ///
    /// assert_eq!(Element::read(&[4, 1, 9])?.0.content(), [9]);
    /// # Ok::<(), sec1::der::Error>(())
    /// ```
    pub fn content(&self) -> &'a [u8] {
        self.content
    }
}

impl fmt::Debug for Element<'_> {
    fn fmt(&self, f: &mut fmt::Formatter<'_>) -> fmt::Result {
        f.debug_struct("Element").field("tag", &self.tag).finish_non_exhaustive()
    }
}

/// Checks that all of the bytes are a tree of elements of depth at most 64, and returns the number
/// of elements. The content of an element with a constructed tag is elements again.
///
/// # Errors
///
/// [`ErrorKind::Truncated`], [`ErrorKind::Tag`], [`ErrorKind::Length`],
/// [`ErrorKind::TrailingData`] or [`ErrorKind::Depth`], the first fault from left to right, with
/// its position.
///
/// # Examples
///
/// ```
/// use sec1::der::{ErrorKind, check_tree};
///
/// assert_eq!(check_tree(&[0x30, 6, 2, 1, 1, 4, 1, 9]), Ok(3));
/// let error = check_tree(&[0x30, 2, 2, 1]).unwrap_err();
/// assert_eq!(error.kind(), ErrorKind::Truncated);
/// assert_eq!(error.position().map(u32::from), Some(3));
/// ```
pub fn check_tree(bytes: &[u8]) -> Result<usize> {
    raw::check_tree(bytes).map_err(|status| {
        raw::tree_fault_at(bytes).map_or(Error::of(status), |(status, at)| Error::at(status, at))
    })
}
