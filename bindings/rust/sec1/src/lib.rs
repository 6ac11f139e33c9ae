#![doc = include_str!("../README.md")]
#![no_std]
#![deny(unsafe_code)]
#![cfg_attr(
    not(test),
    deny(
        clippy::arithmetic_side_effects,
        clippy::expect_used,
        clippy::indexing_slicing,
        clippy::panic,
        clippy::unreachable,
        clippy::unwrap_used
    )
)]

#[cfg(feature = "alloc")]
extern crate alloc;
#[cfg(any(feature = "std", test))]
extern crate std;

pub mod consts;
pub mod der;
pub mod pem;
pub mod point;
pub mod subtle;
pub mod zeroize;

mod certificate;
mod curve;
mod error;
mod others;
mod parameters;
#[cfg(feature = "alloc")]
mod picture;
mod private_key;
mod public_key;
#[allow(unsafe_code)]
mod raw;
mod signature;
mod traits;
mod written;

pub use crate::certificate::certificate_public_key;
pub use crate::consts::Array;
pub use crate::curve::Curve;
pub use crate::error::{Error, Result};
pub use crate::parameters::EcParameters;
pub use crate::pem::LineEnding;
#[cfg(feature = "alloc")]
pub use crate::picture::{DrawOptions, Picture, PictureRow, draw, draw_with};
pub use crate::point::EncodedPoint;
pub use crate::private_key::EcPrivateKey;
pub use crate::public_key::EcPublicKey;
pub use crate::signature::Signature;
pub use crate::traits::DecodeEcPrivateKey;
#[cfg(feature = "alloc")]
pub use crate::traits::EncodeEcPrivateKey;

use crate::der::asn1::ObjectIdentifier;

/// The identifier of elliptic curve public keys, `id-ecPublicKey` (RFC 5480 section 2.1.1).
///
/// # Examples
///
/// ```
/// use sec1::{ALGORITHM_OID, der::asn1::ObjectIdentifier};
///
/// assert_eq!(ObjectIdentifier::new("1.2.840.10045.2.1"), Ok(ALGORITHM_OID));
/// ```
pub const ALGORITHM_OID: ObjectIdentifier = ObjectIdentifier::new_unwrap("1.2.840.10045.2.1");
