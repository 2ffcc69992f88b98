//! What C gives, as Rust has it: each is asked for by a function of `h26x_c::exports`, for as long as the call runs.
//! And a box that there may be no memory for.

use crate::support::AllocError;
use alloc::boxed::Box;
use core::alloc::Layout;
use core::mem::MaybeUninit;
use core::slice;

/// The bytes or numbers at a pointer; NULL has none, whatever `len` says.
///
/// # Safety
///
/// Behind a pointer that isn't NULL are so many, and nobody writes them while `'a` lasts.
#[inline]
pub unsafe fn items<'a, T>(at: *const T, len: usize) -> &'a [T] {
    if at.is_null() {
        return &[];
    }
    // SAFETY: a caller owes it.
    unsafe { slice::from_raw_parts(at, len) }
}

/// The memory at a pointer; NULL has none, whatever `len` says.
///
/// # Safety
///
/// Behind a pointer that isn't NULL is room for so many, and nobody else reads or writes it while `'a` lasts.
#[inline]
pub unsafe fn room<'a, T>(at: *mut T, len: usize) -> &'a mut [T] {
    if at.is_null() {
        return &mut [];
    }
    // SAFETY: a caller owes it.
    unsafe { slice::from_raw_parts_mut(at, len) }
}

/// An output, of which nothing is read; in the place of NULL one that nobody looks at.
///
/// # Safety
///
/// Where the pointer isn't NULL, nobody else reads or writes there while the answer is used.
#[inline]
pub unsafe fn output<T>(at: *mut T, unwanted: &mut MaybeUninit<T>) -> &mut MaybeUninit<T> {
    if at.is_null() {
        return unwanted;
    }
    // SAFETY: a caller owes it, and what stands there may be uninitialised.
    unsafe { &mut *at.cast() }
}

/// A number in and out; in the place of NULL one that nobody looks at.
///
/// # Safety
///
/// Where the pointer isn't NULL, a number stands there, and nobody else reads or writes it while the answer is used.
#[inline]
pub unsafe fn in_out(at: *mut u8, unwanted: &mut u8) -> &mut u8 {
    if at.is_null() {
        return unwanted;
    }
    // SAFETY: a caller owes it.
    unsafe { &mut *at }
}

/// A handle for the time of a call.
///
/// # Safety
///
/// One stands there, and nobody else uses it while `'a` lasts.
#[inline]
pub unsafe fn lent<'a, T>(at: *mut T) -> &'a mut T {
    // SAFETY: a caller owes it.
    unsafe { &mut *at }
}

/// A handle for the time of a call that only looks.
///
/// # Safety
///
/// One stands there, and nobody changes it while `'a` lasts.
#[inline]
pub unsafe fn shared<'a, T>(at: *const T) -> &'a T {
    // SAFETY: a caller owes it.
    unsafe { &*at }
}

/// Where a handle is to be written.
///
/// # Safety
///
/// There is room for one, and nobody else reads or writes there while `'a` lasts.
#[inline]
pub unsafe fn made<'a, T>(at: *mut T) -> &'a mut MaybeUninit<T> {
    // SAFETY: a caller owes it, and what stands there may be uninitialised.
    unsafe { &mut *at.cast() }
}

/// A value in memory of its own.
pub fn try_box<T>(value: T) -> Result<Box<T>, AllocError> {
    const { assert!(size_of::<T>() > 0) };
    // SAFETY: the size isn't 0.
    let block: *mut T = unsafe { alloc::alloc::alloc(Layout::new::<T>()) }.cast();
    if block.is_null() {
        return Err(AllocError);
    }
    // SAFETY: `block` is memory of its own for a `T`, from the allocator of boxes.
    unsafe {
        block.write(value);
        Ok(Box::from_raw(block))
    }
}
