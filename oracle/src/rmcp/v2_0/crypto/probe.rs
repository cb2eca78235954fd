//! The door to `Sha1Hmac`, `Keys` and `SubState`.
use super::{keys::Keys, sha1::Sha1Hmac, SubState};
use ipmi_rs_core::app::auth::{ConfidentialityAlgorithm, IntegrityAlgorithm};

pub fn hmac<'a>(key: &[u8], pieces: impl Iterator<Item = &'a [u8]>) -> [u8; 20] {
    pieces.fold(Sha1Hmac::new(key), |h, piece| h.feed(piece)).finalize()
}

/// K1 and the AES key.
pub fn keys(sik: [u8; 20]) -> ([u8; 20], [u8; 16]) {
    let keys = Keys::from_sik(sik);
    (keys.k1, (*keys.aes_key()).into())
}

pub fn session(sik: [u8; 20], conf: ConfidentialityAlgorithm, integ: IntegrityAlgorithm) -> SubState {
    SubState { keys: Keys::from_sik(sik), confidentiality_algorithm: conf, integrity_algorithm: integ }
}
