//! The four steps, one call at a time, by the crate's own readers, checks and writers. What `State::activate` does between
//! them is repeated here, because it takes no Kg and no single step; `activated` runs it whole, and the two must agree.
use super::super::{socket::Script, v1_5};
use super::crypto::{probe, CryptoState};
use super::messages::probe as messages;
use super::{frame, *};
use crate::refusal::{caught, Refusal, Refusal::Crate, Refusal::Harness};

pub struct Opened {
    pub own: NonZeroU32,
    pub name: String,
    pub response: OpenSessionResponse,
    pub rm: [u8; 16],
}

pub struct Keyed {
    pub opened: Opened,
    pub crypto: CryptoState,
    pub sik: [u8; 20],
    guid: [u8; 16],
    code: Vec<u8>,
}

/// The step record. The crate has none: which call may come next is kept here, by the rules of the layer.
pub enum Record {
    Closed,
    Begun(NonZeroU32, String),
    Opened(Opened),
    Keyed(Keyed),
    Active(Keyed),
}

type Sent = Result<Vec<u8>, Refusal>;

/// Each byte of a name as one character: what is not text cannot be given to the crate at all.
pub(super) fn text(name: &[u8]) -> String {
    String::from_utf8(name.to_vec()).unwrap_or_else(|_| name.iter().map(|b| *b as char).collect())
}

fn privilege(level: Option<u8>) -> Result<Option<PrivilegeLevel>, Refusal> {
    level.map(|l| PrivilegeLevel::try_from(l).map_err(|_| Harness(19, Some(l)))).transpose()
}

fn request(own: NonZeroU32, level: Option<PrivilegeLevel>) -> OpenSessionRequest {
    OpenSessionRequest {
        message_tag: 0,
        requested_max_privilege: level,
        remote_console_session_id: own,
        authentication_algorithms: AuthenticationAlgorithm::RakpHmacSha1,
        confidentiality_algorithms: ConfidentialityAlgorithm::AesCbc128,
        integrity_algorithms: IntegrityAlgorithm::HmacSha1_96,
    }
}

pub fn begin(own: u32, level: Option<u8>, name: &[u8], room: usize) -> Result<(Record, Vec<u8>), Refusal> {
    let own = NonZeroU32::new(own).ok_or(Harness(20, None))?;
    let level = privilege(level)?;
    Username::new(&text(name)).ok_or(Crate(34, None))?;
    let mut out = Vec::new();
    request(own, level).write_data(&mut out);
    if room < out.len() {
        return Err(Harness(15, None));
    }
    Ok((Record::Begun(own, text(name)), out))
}

impl Record {
    pub fn open_response(&mut self, room: usize, data: &[u8], rm: [u8; 16]) -> Sent {
        let Record::Begun(own, name) = self else { return Err(Harness(33, None)) };
        let (own, name) = (*own, std::mem::take(name));
        let username = Username::new(&name).expect("it was taken by begin");
        if room < 28 + username.len() as usize {
            *self = Record::Begun(own, name);
            return Err(Harness(15, None));
        }
        *self = Record::Closed;
        let response = OpenSessionResponse::from_data(data)
            .map_err(|e| messages::of_open(e, data.get(1).copied().unwrap_or(0)))?;
        State::validate_open_session(&request(own, None), &response).map_err(|e| match e {
            ValidateSessionResponseError::MessageTagMismatch => Crate(27, None),
            ValidateSessionResponseError::RemoteConsoleSessionIdMismatch => Crate(28, None),
        })?;
        let opened = Opened { own, name, response, rm };
        let mut out = Vec::new();
        opened.message_1(&username).write(&mut out);
        *self = Record::Opened(opened);
        Ok(out)
    }

    pub fn message_2(&mut self, room: usize, kg: &[u8], password: &[u8], data: &[u8]) -> Sent {
        if !matches!(self, Record::Opened(_)) {
            return Err(Harness(33, None));
        }
        let kg: Option<[u8; 20]> = match kg.len() {
            0 => None,
            20 => Some(kg.try_into().expect("twenty bytes")),
            _ => return Err(Harness(35, None)),
        };
        if password.len() > 255 {
            return Err(Harness(36, None));
        }
        if room < 28 {
            return Err(Harness(15, None));
        }
        let Record::Opened(opened) = std::mem::replace(self, Record::Closed) else { unreachable!() };
        let (record, out) = opened.message_2(kg, password, data)?;
        *self = record;
        Ok(out)
    }

    pub fn message_4(&mut self, data: &[u8]) -> Sent {
        if !matches!(self, Record::Keyed(_)) {
            return Err(Harness(33, None));
        }
        let Record::Keyed(keyed) = std::mem::replace(self, Record::Closed) else { unreachable!() };
        keyed.message_4(data)?;
        *self = Record::Active(keyed);
        Ok(Vec::new())
    }
}

impl Opened {
    fn message_1<'a>(&self, username: &'a Username) -> RakpMessage1<'a> {
        RakpMessage1 {
            message_tag: 0x0D,
            managed_system_session_id: self.response.managed_system_session_id,
            remote_console_random_number: self.rm,
            requested_maximum_privilege_level: PrivilegeLevel::Administrator,
            username,
        }
    }

    fn message_3<'a>(&self, contents: RakpMessage3Contents<'a>) -> RakpMessage3<'a> {
        RakpMessage3 {
            message_tag: 0x0A,
            managed_system_session_id: self.response.managed_system_session_id,
            contents,
        }
    }

    fn message_2(self, kg: Option<[u8; 20]>, password: &[u8], data: &[u8]) -> Result<(Record, Vec<u8>), Refusal> {
        let username = Username::new(&self.name).expect("it was taken by begin");
        let rm1 = self.message_1(&username);
        let rm2 = RakpMessage2::from_data(data)
            .map_err(|e| messages::of_message_2(e, data.get(2).copied().unwrap_or(0)))?;
        State::validate_rm1_rm2(self.own, &rm1, &rm2).map_err(|e| match e {
            ValidateRakpMessage2Error::MessageTagMismatch => Crate(27, None),
            ValidateRakpMessage2Error::RemoteConsoleSessionIdMismatch => Crate(28, None),
        })?;
        let length = match self.response.authentication_payload {
            AuthenticationAlgorithm::RakpNone => 0,
            AuthenticationAlgorithm::RakpHmacSha1 => 20,
            AuthenticationAlgorithm::RakpHmacSha256 => 32,
            AuthenticationAlgorithm::RakpHmacMd5 => 16,
        };
        if rm2.key_exchange_auth_code.len() != length {
            return Err(Crate(30, None));
        }
        let mut crypto = CryptoState::new(kg, password);
        let mut out = Vec::new();
        let Some(code) = crypto.calculate_rakp3_data(&self.response, &rm1, &rm2) else {
            let status = RakpMessage3ErrorStatusCode::InvalidIntegrityCheckValue;
            self.message_3(RakpMessage3Contents::Failure(status)).write(&mut out);
            return Err(Refusal::Declined(out));
        };
        self.message_3(RakpMessage3Contents::Success(&code)).write(&mut out);
        let role_and_length = [u8::from(rm1.requested_maximum_privilege_level), username.len()];
        let parts = [&self.rm[..], &rm2.managed_system_random_number, &role_and_length, &username];
        let key = kg.as_ref().map_or(password, |k| &k[..]);
        let sik = probe::hmac(key, parts.into_iter());
        let guid = rm2.managed_system_guid;
        Ok((Record::Keyed(Keyed { opened: self, crypto, sik, guid, code }), out))
    }
}

impl Keyed {
    fn message_4(&self, data: &[u8]) -> Result<(), Refusal> {
        let rm3 = self.opened.message_3(RakpMessage3Contents::Success(&self.code));
        let rm4 = RakpMessage4::from_data(data)
            .map_err(|e| messages::of_message_4(e, data.get(1).copied().unwrap_or(0)))?;
        let response = &self.opened.response;
        State::validate_rm3_rm4(response.remote_console_session_id, &rm3, &rm4).map_err(|e| match e {
            ValidateRakpMessage4Error::MessageTagMismatch => Crate(27, None),
            ValidateRakpMessage4Error::ManagedSystemSessionIdMismatch => Crate(28, None),
        })?;
        let system = rm3.managed_system_session_id.get();
        let right = self.crypto.verify(
            response.authentication_payload,
            &self.opened.rm,
            system,
            &self.guid,
            rm4.integrity_check_value,
        );
        right.then_some(()).ok_or(Crate(32, None))
    }

    /// The codes of the confidentiality and integrity algorithms.
    pub fn algorithms(&self) -> (u8, u8) {
        let response = &self.opened.response;
        (response.confidentiality_payload.into(), response.integrity_payload.into())
    }
}

/// A packet that the opened session writes, so that its keys show.
pub fn trace(crypto: &mut CryptoState) -> Sent {
    caught(|| {
        getrandom::set([0x5A; 16]);
        let message = frame::message(0, 0x01020304, 7, b"which keys".to_vec()).expect("type 0 is a type");
        let mut buffer = frame::OUTER.to_vec();
        crypto.write_message(&message, &mut buffer).map_err(frame::of_write)?;
        Ok(buffer)
    })
}

/// What `State::activate` sends (payloads alone) and how it ends, over the three answers as packets without algorithms.
pub fn activated(
    own: NonZeroU32,
    level: Option<u8>,
    name: &[u8],
    password: &[u8],
    rm: [u8; 16],
    answers: [&[u8]; 3],
) -> Result<(Vec<Vec<u8>>, Sent), Refusal> {
    let level = privilege(level)?;
    let username = Username::new(&text(name)).ok_or(Crate(34, None))?;
    rand::set(own, rm);
    let plain = frame::Session { conf: false, integ: false, sik: [0; 20] };
    let mut script = Script { answers: Default::default(), sent: Default::default() };
    for (ty, payload) in [0x11, 0x13, 0x15].into_iter().zip(answers) {
        let message = frame::message(ty, 0, 0, payload.to_vec()).expect("a type");
        script.answers.push_back(plain.write([0; 16], &message)?[4..].to_vec());
    }
    let sent = script.sent.clone();
    let status = |n: usize, at: usize| answers[n].get(at).copied().unwrap_or(0);
    let end = caught(|| match State::activate(v1_5::State(script), level, &username, password) {
        Ok(mut state) => trace(&mut state.state),
        Err(e) => Err(match e {
            ActivationError::InvalidKeyExchangeAuthCodeLen(..) => Crate(30, None),
            ActivationError::OpenSessionResponseParse(e) => messages::of_open(e, status(0, 1)),
            ActivationError::OpenSessionResponseValidate(e) => match e {
                ValidateSessionResponseError::MessageTagMismatch => Crate(27, None),
                ValidateSessionResponseError::RemoteConsoleSessionIdMismatch => Crate(28, None),
            },
            ActivationError::RakpMessage2Parse(e) => messages::of_message_2(e, status(1, 2)),
            ActivationError::RakpMessage2Validate(e) => match e {
                ValidateRakpMessage2Error::MessageTagMismatch => Crate(27, None),
                ValidateRakpMessage2Error::RemoteConsoleSessionIdMismatch => Crate(28, None),
            },
            ActivationError::ServerAuthenticationFailed => Crate(31, None),
            ActivationError::RakpMessage4Parse(e) => messages::of_message_4(e, status(2, 1)),
            ActivationError::RakpMessage4Validate(e) => match e {
                ValidateRakpMessage4Error::MessageTagMismatch => Crate(27, None),
                ValidateRakpMessage4Error::ManagedSystemSessionIdMismatch => Crate(28, None),
            },
            ActivationError::RakpMessage4InvalidIntegrityCheckValue => Crate(32, None),
            other => Refusal::Panic(format!("activate ended with {other:?}")),
        }),
    });
    let payloads = sent.borrow().iter().map(|p| p[16..].to_vec()).collect();
    Ok((payloads, end))
}
