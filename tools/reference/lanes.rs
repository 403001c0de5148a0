// Lanes without processor instructions: sixteen bytes in a row, as in our array half. The crate's generic searcher runs over
// them unchanged.
use crate::packed::vector::Vector;

#[derive(Clone, Copy, Debug)]
pub struct Bytes16([u8; 16]);

impl Bytes16 {
    #[inline(always)]
    fn each(self, other: Bytes16, f: impl Fn(u8, u8) -> u8) -> Bytes16 {
        let mut lanes = [0; 16];
        for i in 0..16 {
            lanes[i] = f(self.0[i], other.0[i]);
        }
        Bytes16(lanes)
    }

    #[inline(always)]
    fn shift_in(self, other: Bytes16, k: usize) -> Bytes16 {
        let mut lanes = [0; 16];
        for i in 0..16 {
            lanes[i] = if i < k { other.0[16 - k + i] } else { self.0[i - k] };
        }
        Bytes16(lanes)
    }
}

impl Vector for Bytes16 {
    const BITS: usize = 128;
    const BYTES: usize = 16;

    #[inline(always)]
    unsafe fn splat(byte: u8) -> Bytes16 {
        Bytes16([byte; 16])
    }

    #[inline(always)]
    unsafe fn load_unaligned(data: *const u8) -> Bytes16 {
        Bytes16(data.cast::<[u8; 16]>().read_unaligned())
    }

    #[inline(always)]
    unsafe fn is_zero(self) -> bool {
        self.0 == [0; 16]
    }

    #[inline(always)]
    unsafe fn cmpeq(self, other: Bytes16) -> Bytes16 {
        self.each(other, |x, y| if x == y { 0xFF } else { 0 })
    }

    #[inline(always)]
    unsafe fn and(self, other: Bytes16) -> Bytes16 {
        self.each(other, |x, y| x & y)
    }

    #[inline(always)]
    unsafe fn or(self, other: Bytes16) -> Bytes16 {
        self.each(other, |x, y| x | y)
    }

    #[inline(always)]
    unsafe fn shift_8bit_lane_right<const BITS: i32>(self) -> Bytes16 {
        self.each(self, |x, _| x >> BITS)
    }

    #[inline(always)]
    unsafe fn shift_in_one_byte(self, other: Bytes16) -> Bytes16 {
        self.shift_in(other, 1)
    }

    #[inline(always)]
    unsafe fn shift_in_two_bytes(self, other: Bytes16) -> Bytes16 {
        self.shift_in(other, 2)
    }

    #[inline(always)]
    unsafe fn shift_in_three_bytes(self, other: Bytes16) -> Bytes16 {
        self.shift_in(other, 3)
    }

    #[inline(always)]
    unsafe fn shuffle_bytes(self, indices: Bytes16) -> Bytes16 {
        self.each(indices, |_, k| if k > 15 { 0 } else { self.0[k as usize] })
    }

    #[inline(always)]
    unsafe fn for_each_64bit_lane<T>(self, mut f: impl FnMut(usize, u64) -> Option<T>) -> Option<T> {
        for k in 0..2 {
            let lane = u64::from_le_bytes(self.0[8 * k..8 * k + 8].try_into().unwrap());
            if let Some(t) = f(k, lane) {
                return Some(t);
            }
        }
        None
    }
}
