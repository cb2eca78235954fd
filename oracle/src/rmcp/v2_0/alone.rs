//! The messages' writers and readers, each by itself. The types of the writers leave out an id of 0, and a level or role that
//! is not 1 to 5: there the crate writes 1, and the value is put into what it wrote (`left_out` says where that is so).
use super::messages::probe as messages;
use super::steps::text;
use super::*;
use crate::line::show;
use crate::refusal::{Refusal, Refusal::Crate};

pub fn left_out(id: u32, level: Option<u8>) -> bool {
    NonZeroU32::new(id).is_none() || level.is_some_and(|l| PrivilegeLevel::try_from(l).is_err())
}

fn id_or_1(id: u32) -> NonZeroU32 {
    NonZeroU32::new(id).unwrap_or(NonZeroU32::MIN)
}

fn level_or_1(level: u8) -> PrivilegeLevel {
    PrivilegeLevel::try_from(level).unwrap_or(PrivilegeLevel::Callback)
}

/// What `write` writes, with a left out id put at 4 and a left out level at its place.
fn written(write: impl FnOnce(&mut Vec<u8>), id: u32, level: Option<u8>, level_at: usize) -> Vec<u8> {
    let mut out = Vec::new();
    write(&mut out);
    if left_out(id, None) {
        out[4..8].copy_from_slice(&id.to_le_bytes());
    }
    if let (Some(level), true) = (level, left_out(1, level)) {
        out[level_at] = level;
    }
    out
}

/// None where a code is of no algorithm that is known.
pub fn open_request(tag: u8, level: Option<u8>, id: u32, [a, i, c]: [u8; 3]) -> Option<Vec<u8>> {
    let request = OpenSessionRequest {
        message_tag: tag,
        requested_max_privilege: level.map(level_or_1),
        remote_console_session_id: id_or_1(id),
        authentication_algorithms: AuthenticationAlgorithm::try_from(a).ok()?,
        integrity_algorithms: IntegrityAlgorithm::try_from(i).ok()?,
        confidentiality_algorithms: ConfidentialityAlgorithm::try_from(c).ok()?,
    };
    Some(written(|out| request.write_data(out), id, level, 1))
}

pub fn message_1(tag: u8, id: u32, rm: [u8; 16], role: u8, name: &[u8]) -> Result<Vec<u8>, Refusal> {
    let message = RakpMessage1 {
        message_tag: tag,
        managed_system_session_id: id_or_1(id),
        remote_console_random_number: rm,
        requested_maximum_privilege_level: level_or_1(role),
        username: &Username::new(&text(name)).ok_or(Crate(34, None))?,
    };
    Ok(written(|out| message.write(out), id, Some(role), 24))
}

/// Message 3 with a code, or the one that declines.
pub fn message_3(tag: u8, id: u32, code: Option<&[u8]>) -> Vec<u8> {
    let status = RakpMessage3ErrorStatusCode::InvalidIntegrityCheckValue;
    let message = RakpMessage3 {
        message_tag: tag,
        managed_system_session_id: id_or_1(id),
        contents: code.map_or(RakpMessage3Contents::Failure(status), RakpMessage3Contents::Success),
    };
    written(|out| message.write(out), id, None, 0)
}

pub fn opened(data: &[u8]) -> Result<String, Refusal> {
    let m = OpenSessionResponse::from_data(data)
        .map_err(|e| messages::of_open(e, data.get(1).copied().unwrap_or(0)))?;
    Ok(format!(
        "ok tag {} level {} console {:08x} system {:08x} auth {} integ {} conf {}",
        m.message_tag,
        u8::from(m.maximum_privilege_level),
        m.remote_console_session_id,
        m.managed_system_session_id,
        u8::from(m.authentication_payload),
        u8::from(m.integrity_payload),
        u8::from(m.confidentiality_payload)
    ))
}

pub fn message_2(data: &[u8]) -> Result<String, Refusal> {
    let m = RakpMessage2::from_data(data)
        .map_err(|e| messages::of_message_2(e, data.get(2).copied().unwrap_or(0)))?;
    Ok(format!(
        "ok tag {} console {:08x} random {} guid {} code {}",
        m.message_tag,
        m.remote_console_session_id,
        show(&m.managed_system_random_number),
        show(&m.managed_system_guid),
        show(m.key_exchange_auth_code)
    ))
}

/// The id is the console's; the crate's field for it is named for the system's.
pub fn message_4(data: &[u8]) -> Result<String, Refusal> {
    let m = RakpMessage4::from_data(data)
        .map_err(|e| messages::of_message_4(e, data.get(1).copied().unwrap_or(0)))?;
    let (tag, id, value) = (m.message_tag, m.managed_system_session_id, m.integrity_check_value);
    Ok(format!("ok tag {tag} console {id:08x} value {}", show(value)))
}
