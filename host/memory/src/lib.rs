//! Large buffers of zeros: memory that is untouched until it is written.

use std::alloc::{alloc_zeroed, Layout};

/// Numbers of which all bits zero is one.
pub trait Number: Copy + sealed::Sealed {}
impl Number for u8 {}
impl Number for u32 {}

mod sealed {
    pub trait Sealed {}
    impl Sealed for u8 {}
    impl Sealed for u32 {}
}

/// As many zeros on the heap, or none where there is no such memory. The pages
/// of what is not written are never touched.
pub fn zeros<T: Number>(count: usize) -> Option<Vec<T>> {
    if count == 0 {
        return Some(Vec::new());
    }
    let layout = Layout::array::<T>(count).ok()?;
    // SAFETY: the layout's size is not 0.
    let memory = unsafe { alloc_zeroed(layout) };
    if memory.is_null() {
        return None;
    }
    in_huge_pages(memory, layout.size());
    // SAFETY: memory of the global allocator with the layout of `count` numbers, all zero.
    Some(unsafe { Vec::from_raw_parts(memory.cast(), count, count) })
}

/// Asks for few large pages in place of many small ones: the first touch of a
/// page costs a fault. Where the system has none, nothing changes.
#[cfg(target_os = "linux")]
fn in_huge_pages(memory: *mut u8, size: usize) {
    /// From here on the C library gives a buffer a mapping of its own, so that
    /// the advice ends with the buffer.
    const OWN_MAPPING: usize = 32 << 20;
    const HUGE_PAGE: usize = 2 << 20;
    const MADV_HUGEPAGE: i32 = 14;
    extern "C" {
        fn madvise(address: *mut u8, length: usize, advice: i32) -> i32;
    }
    let before = memory.align_offset(HUGE_PAGE);
    if size > OWN_MAPPING && before < size {
        // SAFETY: pages within the buffer; the advice changes no byte of them.
        unsafe { madvise(memory.add(before), size - before, MADV_HUGEPAGE) };
    }
}

#[cfg(not(target_os = "linux"))]
fn in_huge_pages(_memory: *mut u8, _size: usize) {}

#[cfg(test)]
mod tests {
    use super::zeros;

    #[test]
    fn they_are_zeros() {
        for count in [0, 1, 1000, 9 << 20] {
            let mut numbers = zeros::<u32>(count).expect("there is memory");
            assert_eq!(numbers.len(), count);
            assert!(numbers.iter().all(|n| *n == 0));
            numbers.fill(7);
            numbers.truncate(count / 3);
            numbers.shrink_to_fit();
            assert!(numbers.iter().all(|n| *n == 7));
        }
    }

    #[test]
    fn more_than_there_is_is_none() {
        assert!(zeros::<u32>(usize::MAX / 4).is_none());
        assert!(zeros::<u8>(usize::MAX).is_none());
    }
}
