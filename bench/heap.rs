//! The memory of a static library that is made by Rattle: the C library's.
use std::ffi::c_void;
use std::ptr::NonNull;

unsafe extern "C" {
    fn malloc(size: usize) -> *mut c_void;
    fn realloc(block: *mut c_void, size: usize) -> *mut c_void;
    fn free(block: *mut c_void);
}

/// A block, or that there is none.
#[repr(C)]
pub struct Tried {
    ok: bool,
    block: NonNull<c_void>,
}

fn tried(block: *mut c_void) -> Tried {
    match NonNull::new(block) {
        Some(block) => Tried { ok: true, block },
        None => Tried {
            ok: false,
            block: NonNull::dangling(),
        },
    }
}

#[unsafe(no_mangle)]
extern "C" fn rattle_alloc(size: usize, _align: usize) -> Tried {
    tried(unsafe { malloc(size) })
}

#[unsafe(no_mangle)]
unsafe extern "C" fn rattle_realloc(
    block: *mut c_void,
    _kept: usize,
    size: usize,
    _align: usize,
) -> Tried {
    tried(unsafe { realloc(block, size) })
}

#[unsafe(no_mangle)]
unsafe extern "C" fn rattle_dealloc(block: *mut c_void) {
    unsafe { free(block) }
}
