//! One call many times over, for counting instructions: the session's keys are made once, and each turn reads or writes the
//! same packet.
use super::crypto::SubState;
use super::frame::{message, Session, OUTER};
use std::hint::black_box;

/// `read` or `write`, the two algorithms, the payload's length, how often.
pub fn run(args: &[String]) -> Option<()> {
    let [verb, conf, integ, length, turns] = args else { return None };
    let session = Session { conf: conf == "1", integ: integ == "1", sik: [0x5A; 20] };
    let payload: Vec<u8> = (0..length.parse::<usize>().ok()?).map(|i| i as u8).collect();
    let message = message(0, 0x0A0B0C0D, 1, payload)?;
    let mut crypto: SubState = session.crypto();
    let packet = session.write([7; 16], &message).ok()?.split_off(4);
    for _ in 0..turns.parse::<usize>().ok()? {
        match verb.as_str() {
            "read" => {
                let mut lent = packet.clone();
                black_box(crypto.read_payload(black_box(&mut lent)).ok()?);
            }
            "write" => {
                let mut out = Vec::with_capacity(OUTER.len() + packet.len());
                out.extend(OUTER);
                crypto.write_payload(black_box(&message), &mut out).ok()?;
                black_box(out);
            }
            _ => return None,
        }
    }
    Some(())
}
