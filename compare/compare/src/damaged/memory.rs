//! Memory of which a byte too much cannot be touched unseen.

use std::ptr;
use std::sync::atomic::{AtomicU64, Ordering};

use oracle::Fields;

use crate::rattle::{Description, Left};

const PAGE: usize = 4_096;

// Linux's numbers.
const PROT_NONE: i32 = 0;
const PROT_READ_WRITE: i32 = 1 | 2;
const MAP_PRIVATE_ANONYMOUS: i32 = 0x02 | 0x20;
const SIGBUS: i32 = 7;
const SIGSEGV: i32 = 11;

extern "C" {
    fn mmap(at: *mut u8, length: usize, rights: i32, kind: i32, file: i32, offset: i64) -> *mut u8;
    fn mprotect(at: *mut u8, length: usize, rights: i32) -> i32;
    fn signal(number: i32, handler: extern "C" fn(i32)) -> usize;
    fn write(file: i32, text: *const u8, length: usize) -> isize;
    fn _exit(status: i32) -> !;
}

/// A struct of numbers of one size, or a number.
///
/// # Safety
///
/// It has no gaps, and any bytes are one.
pub unsafe trait Numbers: Copy {}

unsafe impl Numbers for Description {}
unsafe impl Numbers for Left {}
unsafe impl Numbers for Fields {}
unsafe impl Numbers for u32 {}
unsafe impl Numbers for u64 {}

/// Where one of the slices of a call is lent.
pub enum Memory {
    /// Between two pages that cannot be touched.
    Guarded { first: *mut u8, length: usize },
    /// On the heap, each time anew and without a byte too much, for a tool that watches the heap.
    Heap(Box<[u8]>),
}

impl Memory {
    /// For up to so many bytes.
    pub fn guarded(most: usize) -> Self {
        let length = most.next_multiple_of(PAGE);
        // SAFETY: the pages are new ones, which nobody else knows of, and are never given back.
        let first = unsafe {
            let whole = mmap(
                ptr::null_mut(),
                length + 2 * PAGE,
                PROT_NONE,
                MAP_PRIVATE_ANONYMOUS,
                -1,
                0,
            );
            assert!(whole as isize != -1, "there is no memory");
            let first = whole.add(PAGE);
            assert_eq!(mprotect(first, length, PROT_READ_WRITE), 0);
            first
        };
        Memory::Guarded { first, length }
    }

    pub fn heap() -> Self {
        Memory::Heap(Box::default())
    }

    /// Lends numbers, as [`Memory::lend`] does bytes.
    pub fn lend_numbers<T: Numbers>(&mut self, content: T, to_end: bool) -> &mut T {
        // SAFETY: such a type has no gaps.
        let bytes =
            unsafe { std::slice::from_raw_parts((&raw const content).cast(), size_of::<T>()) };
        let lent = self.lend(bytes, to_end).as_mut_ptr().cast::<T>();
        assert!(lent.is_aligned(), "numbers are lent where they cannot lie");
        // SAFETY: the bytes are those of such a value, and are borrowed.
        unsafe { &mut *lent }
    }

    /// Lends these bytes: up to the guard after them, or from the guard before them on.
    pub fn lend(&mut self, content: &[u8], to_end: bool) -> &mut [u8] {
        match self {
            Memory::Heap(bytes) => {
                *bytes = content.into();
                bytes
            }
            Memory::Guarded { first, length } => {
                assert!(content.len() <= *length);
                let from = if to_end { *length - content.len() } else { 0 };
                // SAFETY: the bytes lie within the pages of this memory, which is borrowed.
                let bytes =
                    unsafe { std::slice::from_raw_parts_mut(first.add(from), content.len()) };
                bytes.copy_from_slice(content);
                bytes
            }
        }
    }
}

/// The number of the call that is being made.
static CALL: AtomicU64 = AtomicU64::new(0);

pub fn note(call: u64) {
    CALL.store(call, Ordering::Relaxed);
}

/// Has a touched guard tell which call it was and end the program.
pub fn tell_faults() {
    // SAFETY: the handler does only what a handler may.
    unsafe {
        signal(SIGSEGV, fault);
        signal(SIGBUS, fault);
    }
}

extern "C" fn fault(_: i32) {
    let mut text = *b"damaged: call 00000000000000000000 touched what it was not lent\n";
    let mut number = CALL.load(Ordering::Relaxed);
    for digit in text[14..34].iter_mut().rev() {
        *digit = b'0' + (number % 10) as u8;
        number /= 10;
    }
    // SAFETY: both may be called from a handler.
    unsafe {
        write(2, text.as_ptr(), text.len());
        _exit(1)
    }
}

#[cfg(test)]
mod tests {
    use super::*;

    #[test]
    fn what_is_lent_lies_at_a_guard() {
        let mut memory = Memory::guarded(5_000);
        let bytes = memory.lend(&[1, 2, 3], true);
        assert_eq!(bytes, [1, 2, 3]);
        assert_eq!(bytes.as_ptr_range().end as usize % PAGE, 0);
        let bytes = memory.lend(&[4; 5_000], false);
        assert_eq!(bytes.as_ptr() as usize % PAGE, 0);
        assert!(bytes.iter().all(|&byte| byte == 4));
        let bytes = memory.lend(&[], true);
        assert_eq!(bytes.as_ptr() as usize % PAGE, 0);
        let number = memory.lend_numbers(7_u32, true);
        assert_eq!(*number, 7);
        assert_eq!((&raw const *number) as usize % PAGE, PAGE - 4);
    }
}
