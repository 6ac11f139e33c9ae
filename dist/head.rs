#![allow(non_snake_case, unsafe_op_in_unsafe_fn)]
#![allow(unused_assignments, unused_mut, unused_parens, unreachable_code)]
#![allow(clippy::all, clippy::undocumented_unsafe_blocks, clippy::multiple_unsafe_ops_per_block)]

use core::mem::MaybeUninit;
use core::ptr;

/// The array of a function.
#[repr(align(16))]
struct Frame<const SIZE: usize>([MaybeUninit<u8>; SIZE]);

impl<const SIZE: usize> Frame<SIZE> {
    #[inline(always)]
    fn new() -> Self {
        Frame([const { MaybeUninit::uninit() }; SIZE])
    }
}

/// The address of an object, as a number.
#[inline(always)]
fn address<T>(object: *const T) -> u64 {
    object as usize as u64
}

/// Numbers lie in memory with the least significant byte first, as they are here.
#[cfg(target_endian = "little")]
mod order {
    use super::CONSTANTS;

    /// The address of a constant among the constants.
    #[repr(transparent)]
    pub struct Address(*const u8);
    // SAFETY: what it leads to is never written.
    unsafe impl Sync for Address {}

    pub const fn to(place: usize) -> Address {
        Address((&raw const CONSTANTS).cast::<u8>().wrapping_add(place))
    }
    #[inline(always)]
    pub fn constant(place: u64) -> u64 {
        super::address(&raw const CONSTANTS) + place
    }
    #[inline(always)]
    pub fn pointer(address: u64) -> *mut u8 {
        address as usize as *mut u8
    }
    #[inline(always)]
    pub unsafe fn turn(_objects: u64, _len: u64, _size: u64) {}
}

/// Numbers lie in memory with the least significant byte first. What a call stores for its caller is
/// turned round before the call, and again after it, so that what isn't stored stays as it is. No
/// linker writes an address that way, so the constants have addresses of their own, the last of all,
/// where no object of a program is.
#[cfg(target_endian = "big")]
mod order {
    use super::CONSTANTS;

    const FIRST: u64 = 0xffff_ffff_ffff_0000;

    /// The address of a constant among the constants.
    #[repr(transparent)]
    pub struct Address([u8; 8]);

    pub const fn to(place: usize) -> Address {
        Address((FIRST + place as u64).to_le_bytes())
    }
    #[inline(always)]
    pub fn constant(place: u64) -> u64 {
        FIRST + place
    }
    #[inline(always)]
    pub fn pointer(address: u64) -> *mut u8 {
        let place = address.wrapping_sub(FIRST);
        if place <= size_of_val(&CONSTANTS) as u64 {
            (&raw const CONSTANTS).cast::<u8>().wrapping_add(place as usize).cast_mut()
        } else {
            address as usize as *mut u8
        }
    }
    pub unsafe fn turn(objects: u64, len: u64, size: u64) {
        for at in (0..len).step_by(size as usize) {
            for byte in 0..size / 2 {
                let first = pointer(objects + at + byte);
                core::ptr::swap(first, pointer(objects + at + size - 1 - byte));
            }
        }
    }
}
use order::{Address, constant, pointer, to, turn};

// The constants: bytes, and addresses of others among them.

macro_rules! access {
    ($load:ident $store:ident $type:ty) => {
        #[inline(always)]
        unsafe fn $load(address: u64) -> $type {
            <$type>::from_le(ptr::read_unaligned(pointer(address).cast::<$type>()))
        }
        #[inline(always)]
        unsafe fn $store(address: u64, number: $type) {
            ptr::write_unaligned(pointer(address).cast::<$type>(), number.to_le())
        }
    };
}
// Memory, whatever the alignment of an address is.
access!(load8 store8 u8);
access!(load16 store16 u16);
access!(load32 store32 u32);
access!(load64 store64 u64);

#[inline(always)]
unsafe fn move_(to: u64, from: u64, size: u64) {
    ptr::copy(pointer(from), pointer(to), size as usize)
}
#[inline(always)]
unsafe fn fill(to: u64, byte: u32, size: u64) {
    ptr::write_bytes(pointer(to), byte as u8, size as usize)
}
/// Ends the program. The proofs say that it isn't called.
#[cold]
fn trap() -> ! {
    panic!()
}
