//! Requests for memory that are refused.

use crate::PacketError;
use crate::proved::h26x_reorder::{NotHeld, NotHeldReason};
use crate::support::AllocError;
use std::alloc::{GlobalAlloc, Layout, System};
use std::cell::Cell;
use std::fmt::Debug;

thread_local! {
    /// How many requests are granted before one is refused; below 0 all are.
    static LEFT: Cell<i64> = const { Cell::new(-1) };
    /// Whether one alone is refused.
    static ONE_ALONE: Cell<bool> = const { Cell::new(true) };
    /// The longest request that is granted.
    static LONGEST: Cell<usize> = const { Cell::new(usize::MAX) };
    /// How many were refused.
    static REFUSED: Cell<u32> = const { Cell::new(0) };
}

struct Refusing;

/// Whether this request for so many bytes is refused. What tells of a test that fails has memory.
fn refuses(size: usize) -> bool {
    let left = LEFT.get();
    if std::thread::panicking() || left != 0 && size <= LONGEST.get() {
        LEFT.set((left - 1).max(-1));
        return false;
    }
    if ONE_ALONE.get() {
        LEFT.set(-1);
    }
    REFUSED.set(REFUSED.get() + 1);
    true
}

// SAFETY: memory is the system's.
unsafe impl GlobalAlloc for Refusing {
    unsafe fn alloc(&self, layout: Layout) -> *mut u8 {
        if refuses(layout.size()) {
            return std::ptr::null_mut();
        }
        // SAFETY: the caller's.
        unsafe { System.alloc(layout) }
    }

    unsafe fn dealloc(&self, at: *mut u8, layout: Layout) {
        // SAFETY: the caller's.
        unsafe { System.dealloc(at, layout) }
    }

    unsafe fn realloc(&self, at: *mut u8, layout: Layout, size: usize) -> *mut u8 {
        if refuses(size) {
            return std::ptr::null_mut();
        }
        // SAFETY: the caller's.
        unsafe { System.realloc(at, layout, size) }
    }
}

#[global_allocator]
static REFUSING: Refusing = Refusing;

/// What a call answers whose request with this number, from 0, is refused, alone or with all behind it; and whether
/// one was.
pub fn refused_at<T>(request: i64, one_alone: bool, call: impl FnOnce() -> T) -> (T, bool) {
    let before = REFUSED.get();
    ONE_ALONE.set(one_alone);
    LEFT.set(request);
    let answer = call();
    LEFT.set(-1);
    (answer, REFUSED.get() > before)
}

/// Makes a call that asks for no more than so many bytes at once.
#[track_caller]
pub fn within_bytes<T>(longest: usize, call: impl FnOnce() -> T) -> T {
    let before = REFUSED.get();
    LONGEST.set(longest);
    let answer = call();
    LONGEST.set(usize::MAX);
    assert_eq!(REFUSED.get(), before, "it asks for more");
    answer
}

/// An error that may be for want of memory.
pub trait Lack: Debug {
    fn is_lack(&self) -> bool;
}

impl Lack for PacketError {
    fn is_lack(&self) -> bool {
        *self == PacketError::OutOfMemory
    }
}

impl Lack for AllocError {
    fn is_lack(&self) -> bool {
        true
    }
}

impl Lack for NotHeld {
    fn is_lack(&self) -> bool {
        self.reason == NotHeldReason::OutOfMemory
    }
}

/// Makes a call with its request 0, 1, .. refused, each alone and then with all behind it, until none is, and answers
/// what it answers then. Each time one was, the error is for want of memory, and `kept` holds of what the call may
/// change.
#[track_caller]
pub fn insist<S, T, E: Lack>(
    it: &mut S,
    mut call: impl FnMut(&mut S) -> Result<T, E>,
    mut kept: impl FnMut(&S) -> bool,
) -> Result<T, E> {
    let mut n = 0;
    loop {
        let (answer, was_refused) = refused_at(n / 2, n % 2 == 0, || call(it));
        if !was_refused {
            return answer;
        }
        let error = answer
            .err()
            .expect("a call that was refused memory says so");
        assert!(error.is_lack(), "{error:?}");
        assert!(kept(it), "a refusal changes nothing");
        n += 1;
    }
}

/// The same of a call that may go on without what it was refused: until it does, or none is refused.
#[track_caller]
pub fn insist_or_go_on<S, T, E: Lack>(
    it: &mut S,
    mut call: impl FnMut(&mut S) -> Result<T, E>,
    mut kept: impl FnMut(&S) -> bool,
) -> Result<T, E> {
    let mut n = 0;
    loop {
        let (answer, was_refused) = refused_at(n / 2, n % 2 == 0, || call(it));
        match answer {
            Err(error) if was_refused => assert!(error.is_lack() && kept(it), "{error:?}"),
            answer => return answer,
        }
        n += 1;
    }
}

/// The same as [`insist`] of a call that changes nothing.
#[track_caller]
pub fn insist_on<T, E: Lack>(mut call: impl FnMut() -> Result<T, E>) -> Result<T, E> {
    insist(&mut (), |()| call(), |()| true)
}

/// Makes a call with every request refused, of which there must be none.
#[track_caller]
pub fn without_memory<T>(call: impl FnOnce() -> T) -> T {
    let (answer, was_refused) = refused_at(0, false, call);
    assert!(!was_refused, "it takes memory");
    answer
}

/// Makes calls, one or more of which are refused memory.
#[track_caller]
pub fn some_refused(calls: impl FnOnce()) {
    let before = REFUSED.get();
    calls();
    assert!(REFUSED.get() > before, "no call takes memory");
}
