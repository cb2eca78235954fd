//! Packets: `SubState::read_payload` and `write_payload` with the keys, IV and algorithms of a case.
use super::crypto::{probe, CryptoUnwrapError};
use super::{ConfidentialityAlgorithm, IntegrityAlgorithm, Message, PayloadType, ReadError, WriteError};
use crate::refusal::Refusal::{self, Crate};

pub use super::crypto::probe::{hmac, keys};
pub use super::messages::probe::block;

/// The four bytes that stand before a packet on the wire.
pub const OUTER: [u8; 4] = [0x06, 0x00, 0xFF, 0x07];

#[derive(Clone, Copy)]
pub struct Session {
    pub conf: bool,
    pub integ: bool,
    pub sik: [u8; 20],
}

impl Session {
    pub(super) fn crypto(&self) -> super::crypto::SubState {
        use {ConfidentialityAlgorithm as C, IntegrityAlgorithm as I};
        let conf = if self.conf { C::AesCbc128 } else { C::None };
        let integ = if self.integ { I::HmacSha1_96 } else { I::None };
        probe::session(self.sik, conf, integ)
    }

    pub fn read(&self, packet: &mut [u8]) -> Result<Message, Refusal> {
        self.crypto().read_payload(packet).map_err(of_read)
    }

    /// The packet behind its four outer bytes.
    pub fn write(&self, iv: [u8; 16], message: &Message) -> Result<Vec<u8>, Refusal> {
        getrandom::set(iv);
        let mut buffer = OUTER.to_vec();
        self.crypto().write_payload(message, &mut buffer).map_err(of_write)?;
        Ok(buffer)
    }
}

pub fn message(ty: u8, id: u32, seq: u32, payload: Vec<u8>) -> Option<Message> {
    Some(Message {
        ty: PayloadType::try_from(ty).ok()?,
        session_id: id,
        session_sequence_number: seq,
        payload,
    })
}

pub fn of_read(error: ReadError) -> Refusal {
    use CryptoUnwrapError::*;
    match error {
        ReadError::NotIpmiV2_0 => Crate(2, None),
        ReadError::NotEnoughData | ReadError::DecryptionError(NotEnoughData) => Crate(1, None),
        ReadError::NotRmcpPlus => unreachable!("the crate never makes it"),
        ReadError::InvalidPayloadType(b) => Crate(3, Some(b)),
        ReadError::DecryptionError(MismatchingEncryptionState) => Crate(4, None),
        ReadError::DecryptionError(MismatchingAuthenticationState) => Crate(5, None),
        ReadError::DecryptionError(IncorrectPayloadLen) => Crate(9, None),
        ReadError::DecryptionError(IncorrectConfidentialityTrailerLen) => Crate(10, None),
        ReadError::DecryptionError(InvalidConfidentialityTrailer) => Crate(11, None),
        ReadError::DecryptionError(AuthCodeMismatch) => Crate(7, None),
        ReadError::DecryptionError(IncorrectIntegrityTrailerLen) => Crate(6, None),
        ReadError::DecryptionError(UnknownNextHeader(b)) => Crate(8, Some(b)),
    }
}

pub fn of_write(error: WriteError) -> Refusal {
    match error {
        WriteError::PayloadTooLong => Crate(13, None),
        WriteError::EncryptedPayloadTooLong => Crate(14, None),
        WriteError::Io(_) => unreachable!("nothing is sent here"),
    }
}
