// Stands in for the pointer extension: by how many bytes a pointer lies behind another.
pub(crate) trait Pointer {
    unsafe fn distance(self, origin: Self) -> usize;
}

impl Pointer for *const u8 {
    #[inline(always)]
    unsafe fn distance(self, origin: *const u8) -> usize {
        self as usize - origin as usize
    }
}
