//! FNV-1a in 64 bits, of fingerprints as their bytes, the low one of each first.

use crate::paper::hash::Fingerprint;

pub fn digest<F: Fingerprint>(fingerprints: &[F]) -> u64 {
    let bytes = fingerprints.iter().flat_map(|fingerprint| fingerprint.bytes());
    bytes.fold(0xcbf2_9ce4_8422_2325, |digest, byte| (digest ^ u64::from(byte)).wrapping_mul(0x100_0000_01b3))
}
