//! `steps` and `script`: the four steps on one record.
use crate::line::{hex, hex_of, level, number, room, show, word, LARGEST_ROOM};
use crate::refusal::{caught, Refusal};
use crate::rmcp::frame;
use crate::rmcp::steps::{self, Record};
use std::num::NonZeroU32;

struct Steps {
    kg: Vec<u8>,
    level: Option<u8>,
    name: Vec<u8>,
    password: Vec<u8>,
    own: u32,
    rm: [u8; 16],
    answers: [Vec<u8>; 3],
}

/// What may stand behind a case's other fields: how the user is looked up. The crate has no such thing, so it is only seen to be well formed.
fn check_lookup(more: &[&[u8]]) -> Option<()> {
    match more {
        [] => Some(()),
        [lookup] => number(lookup, 1).map(|_| ()),
        _ => None,
    }
}

pub fn steps(f: &[&[u8]]) -> Option<String> {
    let [kg, given, name, password, own, rm, opened, m2, m4, more @ ..] = f else { return None };
    check_lookup(more)?;
    let case = Steps {
        kg: hex(kg)?,
        level: level(given)?,
        name: hex(name)?,
        password: hex(password)?,
        own: word(own)?,
        rm: hex_of(rm)?,
        answers: [hex(opened)?, hex(m2)?, hex(m4)?],
    };
    let (mut record, mut sent) = (Record::Closed, Vec::new());
    let end = case.run(&mut record, &mut sent);
    if let Err(Refusal::Declined(bytes)) = &end {
        sent.push(bytes.clone());
    }
    let outcome = match (&end, &mut record) {
        (Ok(()), Record::Active(keyed)) => {
            let (conf, integ) = keyed.algorithms();
            let (k1, aes) = frame::keys(keyed.sik);
            format!("ok conf {conf} integ {integ} k1 {} aes {}", show(&k1), show(&aes))
        }
        (Err(refusal), _) => refusal.to_string(),
        _ => "disagrees: no session".to_string(),
    };
    let shown = match sent.is_empty() {
        true => "-".to_string(),
        false => sent.iter().map(|m| show(m)).collect::<Vec<_>>().join(","),
    };
    match case.disagreement(&mut record, &sent, &end) {
        Some(text) => Some(format!("disagrees: {text}; sent {shown} {outcome}")),
        None => Some(format!("sent {shown} {outcome}")),
    }
}

impl Steps {
    fn run(&self, record: &mut Record, sent: &mut Vec<Vec<u8>>) -> Result<(), Refusal> {
        let [opened, m2, m4] = &self.answers;
        let (begun, request) = caught(|| steps::begin(self.own, self.level, &self.name, LARGEST_ROOM))?;
        *record = begun;
        sent.push(request);
        sent.push(caught(|| record.open_response(LARGEST_ROOM, opened, self.rm))?);
        sent.push(caught(|| record.message_2(LARGEST_ROOM, &self.kg, &self.password, m2))?);
        caught(|| record.message_4(m4))?;
        Ok(())
    }

    /// Where the crate's own `activate` can run the same exchange, it must send and end the same; and an opened session
    /// must write with the keys that are shown.
    fn disagreement(&self, record: &mut Record, sent: &[Vec<u8>], end: &Result<(), Refusal>) -> Option<String> {
        let mut written = None;
        if let (Ok(()), Record::Active(keyed)) = (end, record) {
            let packet = steps::trace(&mut keyed.crypto);
            if let ((conf @ 0..=1, integ @ 0..=1), Ok(packet)) = (keyed.algorithms(), &packet) {
                let session = frame::Session { conf: conf == 1, integ: integ == 1, sik: keyed.sik };
                let message = frame::message(0, 0x01020304, 7, b"which keys".to_vec())?;
                if session.write([0x5A; 16], &message).as_ref() != Ok(packet) {
                    return Some("the session has other keys".to_string());
                }
            }
            written = Some(packet);
        }
        let own = NonZeroU32::new(self.own)?;
        let carried = self.answers.iter().all(|a| a.len() <= 65_535);
        if !self.kg.is_empty() || self.password.len() > 255 || !carried {
            return None;
        }
        let [opened, m2, m4] = &self.answers;
        let (by_activate, ended) =
            steps::activated(own, self.level, &self.name, &self.password, self.rm, [opened, m2, m4]).ok()?;
        let same_end = match (end, &ended) {
            (Ok(()), ended) => written.as_ref() == Some(ended),
            (Err(a), Err(b)) => a.to_string() == b.to_string(),
            _ => false,
        };
        (by_activate != sent || !same_end).then(|| format!("activate ended with {ended:?}"))
    }
}

enum Call {
    Begin(u32, Option<u8>, Vec<u8>, usize),
    Open(usize, Vec<u8>, [u8; 16]),
    M2(usize, Vec<u8>, Vec<u8>, Vec<u8>),
    M4(Vec<u8>),
}

fn call(text: &[u8]) -> Option<Call> {
    let f: Vec<&[u8]> = text.split(|c| *c == b' ').collect();
    Some(match f[..] {
        [b"begin", own, given, name, r, ref more @ ..] => {
            check_lookup(more)?;
            Call::Begin(word(own)?, level(given)?, hex(name)?, room(r)?)
        }
        [b"open", r, opened, rm] => Call::Open(room(r)?, hex(opened)?, hex_of(rm)?),
        [b"m2", r, kg, password, message] => Call::M2(room(r)?, hex(kg)?, hex(password)?, hex(message)?),
        [b"m4", message] => Call::M4(hex(message)?),
        _ => return None,
    })
}

/// The calls of a script stand behind one another with `; ` between them.
fn parted(text: &[u8]) -> Vec<&[u8]> {
    let (mut parts, mut from) = (Vec::new(), 0);
    for at in 0..text.len().saturating_sub(1) {
        if &text[at..at + 2] == b"; " {
            parts.push(&text[from..at]);
            from = at + 2;
        }
    }
    parts.push(&text[from..]);
    parts
}

pub fn script(text: &[u8]) -> Option<String> {
    let calls = parted(text).into_iter().map(call).collect::<Option<Vec<_>>>()?;
    let mut record = Record::Closed;
    let answers = calls.into_iter().map(|c| {
        let end = caught(|| match c {
            Call::Begin(own, given, name, room) => {
                record = Record::Closed;
                let (begun, out) = steps::begin(own, given, &name, room)?;
                record = begun;
                Ok(out)
            }
            Call::Open(room, opened, rm) => record.open_response(room, &opened, rm),
            Call::M2(room, kg, password, message) => record.message_2(room, &kg, &password, &message),
            Call::M4(message) => record.message_4(&message),
        });
        match end {
            Ok(message) => format!("ok {}", show(&message)),
            Err(Refusal::Declined(bytes)) => format!("refused 31 wrote {}", show(&bytes)),
            Err(refusal) => refusal.to_string(),
        }
    });
    Some(answers.collect::<Vec<_>>().join("; "))
}
