//! Our library through its C entries, as include/gillpocketry.h declares them. The entries promise an answer for every input, so
//! calling them with slices is safe.

use oracle::paper::room::Room;
use oracle::rust::Filtered;

/// Our entries for fingerprints of this type.
pub trait Entries: Filtered {
    fn contains(descriptor: &[u8], fingerprints: &[Self], key: u64) -> u32;
    fn build(keys: &[u64], limit: u32, room: &mut Room<Self>) -> u32;
}

macro_rules! entries {
    ($element:ty, $contains:ident, $build:ident) => {
        extern "C" {
            fn $contains(
                descriptor: *const u8,
                descriptor_length: usize,
                fingerprints: *const $element,
                fingerprints_length: usize,
                key: u64,
            ) -> u32;

            fn $build(
                keys: *const u64,
                keys_length: usize,
                limit: u32,
                fingerprints: *mut $element,
                fingerprints_length: usize,
                lone: *mut u32,
                lone_length: usize,
                counts: *mut u16,
                counts_length: usize,
                sums: *mut u64,
                sums_length: usize,
                positions: *mut u8,
                positions_length: usize,
                order: *mut u64,
                order_length: usize,
                starts: *mut u32,
                starts_length: usize,
                descriptor: *mut u8,
                descriptor_length: usize,
            ) -> u32;
        }

        impl Entries for $element {
            #[inline]
            fn contains(descriptor: &[u8], fingerprints: &[Self], key: u64) -> u32 {
                unsafe { $contains(descriptor.as_ptr(), descriptor.len(), fingerprints.as_ptr(), fingerprints.len(), key) }
            }

            fn build(keys: &[u64], limit: u32, room: &mut Room<Self>) -> u32 {
                unsafe {
                    $build(
                        keys.as_ptr(),
                        keys.len(),
                        limit,
                        room.fingerprints.as_mut_ptr(),
                        room.fingerprints.len(),
                        room.lone.as_mut_ptr(),
                        room.lone.len(),
                        room.counts.as_mut_ptr(),
                        room.counts.len(),
                        room.sums.as_mut_ptr(),
                        room.sums.len(),
                        room.positions.as_mut_ptr(),
                        room.positions.len(),
                        room.order.as_mut_ptr(),
                        room.order.len(),
                        room.starts.as_mut_ptr(),
                        room.starts.len(),
                        room.descriptor.as_mut_ptr(),
                        room.descriptor.len(),
                    )
                }
            }
        }
    };
}

entries!(u8, gp_fuse8_contains, gp_fuse8_build);
entries!(u16, gp_fuse16_contains, gp_fuse16_build);

extern "C" {
    #[allow(dead_code)] // not every program asks for flush keys
    fn gp_flush_key(unit: u16, valve: u8, seconds: i64, key: *mut u64) -> u32;
}

#[allow(dead_code)]
pub fn flush_key(unit: u16, valve: u8, seconds: i64, key: &mut u64) -> u32 {
    unsafe { gp_flush_key(unit, valve, seconds, key) }
}
