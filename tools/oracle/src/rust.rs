//! The Rust crate, its answers in the words of `paper`.

use crate::paper::attempt::Built;
use crate::paper::hash::{seed, Fingerprint};
use crate::paper::layout::MAX_ATTEMPTS;
use crate::paper::query::read;
use xorf::{BinaryFuse16, BinaryFuse16Ref, BinaryFuse8, BinaryFuse8Ref, DmaSerializable, Filter, FilterRef};

/// The Rust's filter with fingerprints of this type.
pub trait Filtered: Fingerprint {
    type Filter: for<'a> TryFrom<&'a [u64]> + DmaSerializable;
    type Reader<'a>: FilterRef<'a, u64>;

    fn fingerprints(filter: &Self::Filter) -> &[Self];
}

impl Filtered for u8 {
    type Filter = BinaryFuse8;
    type Reader<'a> = BinaryFuse8Ref<'a>;

    fn fingerprints(filter: &BinaryFuse8) -> &[u8] {
        &filter.fingerprints
    }
}

impl Filtered for u16 {
    type Filter = BinaryFuse16;
    type Reader<'a> = BinaryFuse16Ref<'a>;

    fn fingerprints(filter: &BinaryFuse16) -> &[u16] {
        &filter.fingerprints
    }
}

/// The filter itself, as `try_from` makes it.
pub fn filter<F: Filtered>(keys: &[u64]) -> Option<F::Filter> {
    F::Filter::try_from(keys).ok()
}

/// What `try_from` makes of the keys. The attempt is known by its seed.
pub fn build<F: Filtered>(keys: &[u64]) -> Option<Built<F>> {
    let filter = filter::<F>(keys)?;
    let mut descriptor = [0; 20];
    filter.dma_copy_descriptor_to(&mut descriptor);
    let its_seed = read(&descriptor).expect("the Rust's descriptor is accepted").seed;
    let attempt = (1..=MAX_ATTEMPTS).find(|&attempt| seed(attempt) == its_seed);
    Some(Built {
        attempt: attempt.expect("the Rust's seed is that of an attempt"),
        descriptor,
        fingerprints: F::fingerprints(&filter).to_vec(),
    })
}

/// The Rust's reader over descriptor bytes and fingerprints, ready to be asked. It takes the fingerprints as bytes of memory.
pub fn reader<'a, F: Filtered>(descriptor: &[u8], fingerprints: &'a [F]) -> F::Reader<'a> {
    let bytes = unsafe { std::slice::from_raw_parts(fingerprints.as_ptr().cast(), std::mem::size_of_val(fingerprints)) };
    F::Reader::from_dma(descriptor, bytes)
}

pub fn contains<F: Filtered>(descriptor: &[u8], fingerprints: &[F], key: u64) -> bool {
    reader(descriptor, fingerprints).contains(&key)
}
