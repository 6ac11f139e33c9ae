//! What the library writes into a slice that may be too short.

use crate::der::{Error, ErrorKind};
use crate::raw::Status;
#[cfg(feature = "alloc")]
use alloc::vec::Vec;

/// The length of what was written, or the refusal and the length if that is what there is no room
/// for.
pub(crate) type Written = Result<usize, (Status, usize)>;

/// Writes by a call of the library at the beginning of a slice, and returns what was written, or
/// the error of the refusal.
pub(crate) fn into_slice<E: From<Error>>(
    buf: &mut [u8],
    write: impl Fn(&mut [u8]) -> Written,
    error_of: impl Fn(Status) -> E,
) -> Result<&[u8], E> {
    let len = write(buf).map_err(|(status, _)| error_of(status))?;
    buf.get(..len).ok_or(Error::of_kind(ErrorKind::Failed).into())
}

/// Returns what a call of the library writes, or the error of the refusal. The first call says how
/// long it is.
#[cfg(feature = "alloc")]
pub(crate) fn to_vec<E: From<Error>>(
    write: impl Fn(&mut [u8]) -> Written,
    error_of: impl Fn(Status) -> E,
) -> Result<Vec<u8>, E> {
    let failed = Error::of_kind(ErrorKind::Failed);
    let len = match write(&mut []) {
        Err((status, len)) if status.get() == sec1_sys::SEC1_BUFFER => len,
        Err((status, _)) => return Err(error_of(status)),
        Ok(_) => return Err(failed.into()),
    };
    let mut buf = Vec::new();
    buf.try_reserve_exact(len).map_err(|_| Error::of_kind(ErrorKind::Memory))?;
    buf.resize(len, 0);
    match into_slice(&mut buf, write, error_of)?.len() == len {
        true => Ok(buf),
        false => Err(failed.into()),
    }
}
