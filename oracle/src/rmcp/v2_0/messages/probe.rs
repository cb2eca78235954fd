//! The door to one algorithm block, and the numbers of the errors in the messages.
use super::open_session::{AlgorithmPayload, AlgorithmPayloadError};
use super::{ParseSessionResponseError, RakpMessage2ParseError, RakpMessage4ParseError};
use crate::refusal::Refusal::{self, Crate, Unnumbered};

/// The kind of a block (`auth`, `integ`, `conf`) and its code.
pub fn block(data: &[u8]) -> Result<(&'static str, u8), Refusal> {
    Ok(match AlgorithmPayload::from_data(data).map_err(of_block)? {
        AlgorithmPayload::Authentication(a) => ("auth", a.into()),
        AlgorithmPayload::Integrity(i) => ("integ", i.into()),
        AlgorithmPayload::Confidentiality(c) => ("conf", c.into()),
    })
}

fn of_block(error: AlgorithmPayloadError) -> Refusal {
    use AlgorithmPayloadError::*;
    match error {
        IncorrectDataLen => Unnumbered("IncorrectDataLen"),
        IncorrectPayloadLenValue => Crate(22, None),
        UnknownAuthAlgorithm(b) | UnknownIntegrityAlgorithm(b) | UnknownConfidentialityAlgorithm(b) => {
            Crate(23, Some(b))
        }
        UnknownPayloadType(b) => Crate(24, Some(b)),
    }
}

/// A status with a name is kept by the crate as that name; `status` is the byte that it was read from.
pub fn of_open(error: ParseSessionResponseError, status: u8) -> Refusal {
    use ParseSessionResponseError::*;
    match error {
        NotEnoughData => Crate(1, None),
        HaveErrorCode(Ok(_)) => Crate(17, Some(status)),
        HaveErrorCode(Err(b)) => Crate(18, Some(b)),
        ZeroRemoteConsoleSessionId => Crate(20, None),
        ZeroManagedSystemSessionId => Crate(21, None),
        InvalidPrivilegeLevel(b) => Crate(19, Some(b)),
        AlgorithmPayloadError(e) => of_block(e),
        AuthPayloadWasNonAuthAlgorithm
        | IntegrityPayloadWasNonIntegrityAlgorithm
        | ConfidentialityPayloadWasNonConfidentialityAlgorithm => Crate(25, None),
        InvalidAlgorithmPayload => unreachable!("the crate never makes it"),
    }
}

pub fn of_message_2(error: RakpMessage2ParseError, status: u8) -> Refusal {
    use RakpMessage2ParseError::*;
    match error {
        NotEnoughData => Crate(1, None),
        ErrorStatusCode(_) => Crate(17, Some(status)),
        UnknownErrorStatusCode(b) => Crate(18, Some(b)),
        InvalidRemoteConsoleSessionId => Crate(20, None),
    }
}

pub fn of_message_4(error: RakpMessage4ParseError, status: u8) -> Refusal {
    use RakpMessage4ParseError::*;
    match error {
        NotEnoughData => Crate(1, None),
        ErrorStatusCode(_) => Crate(17, Some(status)),
        UnknownErrorStatusCode(b) => Crate(18, Some(b)),
        ZeroManagedSystemSessionId => Crate(21, None),
    }
}
