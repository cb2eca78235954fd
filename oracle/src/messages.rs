//! The cases of one message alone.
use crate::line::{hex, hex_of, level, number, room, show, word};
use crate::refusal::{caught, Refusal};
use crate::rmcp::alone;

fn byte(field: &[u8]) -> Option<u8> {
    number(field, 255).map(|n| n as u8)
}

pub fn answer(verb: &[u8], fields: &[&[u8]]) -> Option<String> {
    match (verb, fields) {
        (b"opened", [data]) => Some(read(&hex(data)?, alone::opened)),
        (b"rakp2", [data]) => Some(read(&hex(data)?, alone::message_2)),
        (b"rakp4", [data]) => Some(read(&hex(data)?, alone::message_4)),
        (b"open-request", [tag, given, id, a, i, c, lent]) => {
            let (given, id) = (level(given)?, word(id)?);
            let bytes = alone::open_request(byte(tag)?, given, id, [byte(a)?, byte(i)?, byte(c)?])?;
            write(lent, alone::left_out(id, given), || Ok(bytes))
        }
        (b"rakp1", [tag, id, rm, role, name, lent]) => {
            let (tag, id, rm, role, name) = (byte(tag)?, word(id)?, hex_of(rm)?, byte(role)?, hex(name)?);
            write(lent, alone::left_out(id, Some(role)), || alone::message_1(tag, id, rm, role, &name))
        }
        (b"rakp3", [tag, id, code, lent]) => {
            let (tag, id, code) = (byte(tag)?, word(id)?, hex(code)?);
            write(lent, alone::left_out(id, None), || Ok(alone::message_3(tag, id, Some(&code))))
        }
        (b"decline", [tag, id, lent]) => {
            let (tag, id) = (byte(tag)?, word(id)?);
            write(lent, alone::left_out(id, None), || Ok(alone::message_3(tag, id, None)))
        }
        _ => None,
    }
}

fn read(data: &[u8], reader: impl FnOnce(&[u8]) -> Result<String, Refusal>) -> String {
    caught(|| reader(data)).unwrap_or_else(|refusal| refusal.to_string())
}

/// `excluded` stands before what was written where a value of the case was left out of the crate's types.
fn write(lent: &[u8], left_out: bool, writer: impl FnOnce() -> Result<Vec<u8>, Refusal>) -> Option<String> {
    let room = room(lent)?;
    let end = caught(|| {
        let message = writer()?;
        if message.len() > room {
            return Err(Refusal::Harness(15, None));
        }
        Ok(format!("{}ok {}", if left_out { "excluded " } else { "" }, show(&message)))
    });
    Some(end.unwrap_or_else(|refusal| refusal.to_string()))
}
