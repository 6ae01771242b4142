//! Values of slices, whose places are not tested, since proofs take such tests out of `chtab`.

/// The value at a place, which lies within the slice. That is not tested, since proofs take such tests out of `chtab`.
#[inline(always)]
pub fn at<T: Copy>(values: &[T], place: u32) -> T {
    debug_assert!((place as usize) < values.len());
    unsafe { *values.get_unchecked(place as usize) }
}

/// The same, to be changed.
#[inline(always)]
pub fn at_mut<T>(values: &mut [T], place: u32) -> &mut T {
    debug_assert!((place as usize) < values.len());
    unsafe { values.get_unchecked_mut(place as usize) }
}

/// The values from one place of the slice to another.
#[inline(always)]
pub fn part<T>(values: &[T], from: u32, to: u32) -> &[T] {
    debug_assert!(from <= to && to as usize <= values.len());
    unsafe { values.get_unchecked(from as usize..to as usize) }
}
