//! One answer to each kind of case.
use crate::arrivals;
use crate::line::{hex, hex_of, number, room, show, word};
use crate::messages;
use crate::refusal::{caught, Refusal};
use crate::rmcp::frame::{self, Session, OUTER};
use crate::script;
use aes::cipher::{block_padding::NoPadding, BlockDecryptMut, BlockEncryptMut, KeyIvInit};
use aes::cipher::{BlockDecrypt, BlockEncrypt, KeyInit};
use aes::Aes128;
use sha1::{Digest, Sha1};

const LONGEST_LINE: usize = 524_288;
const LONGEST_HASHED: usize = 1_048_576;

pub fn answer(line: &[u8]) -> Option<String> {
    if line.len() > LONGEST_LINE {
        return None;
    }
    if let Some(calls) = line.strip_prefix(b"script ") {
        return script::script(calls);
    }
    let f: Vec<&[u8]> = line.split(|c| *c == b' ').collect();
    match (f[0], &f[1..]) {
        (b"sha1", [data]) => Some(hashed(&[hex(data)?])),
        (b"pieces", pieces @ [_, ..]) => {
            Some(hashed(&pieces.iter().map(|p| hex(p)).collect::<Option<Vec<_>>>()?))
        }
        (b"hmac", [key, data]) => Some(hmac(&hex(key)?, &[hex(data)?])),
        (b"zeros", [n, m]) => Some(zeros(n, m)?.map_or_else(too_long, |pieces| hashed(&pieces))),
        (b"hmac-zeros", [n, m]) => {
            Some(zeros(n, m)?.map_or_else(too_long, |pieces| hmac(&[0x0B; 20], &pieces)))
        }
        (b"encrypt", [key, block]) => Some(block_cipher(hex_of(key)?, hex_of(block)?, true)),
        (b"decrypt", [key, block]) => Some(block_cipher(hex_of(key)?, hex_of(block)?, false)),
        (b"cbc-encrypt", [key, iv, data]) => Some(cbc(hex_of(key)?, hex_of(iv)?, hex(data)?, true)),
        (b"cbc-decrypt", [key, iv, data]) => Some(cbc(hex_of(key)?, hex_of(iv)?, hex(data)?, false)),
        (b"keys", [sik]) => {
            let (k1, aes) = frame::keys(hex_of(sik)?);
            Some(format!("ok k1 {} aes {}", show(&k1), show(&aes)))
        }
        (b"block", [data]) => Some(match frame::block(&hex(data)?) {
            Ok((kind, code)) => format!("ok {kind} {code}"),
            Err(refusal) => refusal.to_string(),
        }),
        (b"read", [conf, integ, sik, packet]) => Some(read(&session(conf, integ, sik)?, hex(packet)?, 0, |_| Ok(()))),
        (b"datagram", [conf, integ, sik, datagram]) => {
            Some(read_datagram(&session(conf, integ, sik)?, hex(datagram)?, |_| Ok(())))
        }
        (b"arrive" | b"arrivals" | b"once" | b"once-datagram", rest) => arrivals::answer(f[0], rest),
        (b"write", rest) => write(rest, 4),
        (b"wrap", rest) => write(rest, 0),
        (b"steps", rest) => script::steps(rest),
        (verb, rest) => messages::answer(verb, rest),
    }
}

fn too_long() -> String {
    "harness 37 blocks -".to_string()
}

/// N zero bytes in pieces of M; inside, none where N is over the limit of the layer (the crate has no limit).
fn zeros(n: &[u8], m: &[u8]) -> Option<Option<Vec<Vec<u8>>>> {
    let (n, m) = (number(n, u32::MAX as u64)? as usize, number(m, 65_536)? as usize);
    if m == 0 {
        return None;
    }
    if n > LONGEST_HASHED {
        return Some(None);
    }
    let mut pieces = vec![vec![0; m]; n / m];
    pieces.extend((n % m > 0).then(|| vec![0; n % m]));
    Some(Some(pieces))
}

fn hashed(pieces: &[Vec<u8>]) -> String {
    let digest = pieces.iter().fold(Sha1::new(), |h, p| h.chain_update(p)).finalize();
    format!("ok {} blocks -", show(&digest))
}

fn hmac(key: &[u8], pieces: &[Vec<u8>]) -> String {
    format!("ok {} blocks -", show(&frame::hmac(key, pieces.iter().map(|p| &p[..]))))
}

fn block_cipher(key: [u8; 16], block: [u8; 16], forth: bool) -> String {
    let mut out = block.into();
    match forth {
        true => Aes128::new(&key.into()).encrypt_block(&mut out),
        false => Aes128::new(&key.into()).decrypt_block(&mut out),
    }
    format!("ok {}", show(&out))
}

/// As `sub_state.rs` calls the cipher, with its `unwrap`.
fn cbc(key: [u8; 16], iv: [u8; 16], mut data: Vec<u8>, forth: bool) -> String {
    let length = data.len();
    let done = caught(|| {
        match forth {
            true => cbc::Encryptor::<Aes128>::new(&key.into(), &iv.into())
                .encrypt_padded_mut::<NoPadding>(&mut data, length)
                .map(|_| ())
                .unwrap(),
            false => cbc::Decryptor::<Aes128>::new(&key.into(), &iv.into())
                .decrypt_padded_mut::<NoPadding>(&mut data)
                .map(|_| ())
                .unwrap(),
        }
        Ok(())
    });
    match done {
        Ok(()) => format!("ok {}", show(&data)),
        Err(refusal) => refusal.to_string(),
    }
}

pub fn session(conf: &[u8], integ: &[u8], sik: &[u8]) -> Option<Session> {
    Some(Session { conf: number(conf, 1)? == 1, integ: number(integ, 1)? == 1, sik: hex_of(sik)? })
}

/// The four outer bytes are looked at here, the rest is the crate's.
pub fn read_datagram(session: &Session, datagram: Vec<u8>, guard: impl FnOnce(u32) -> Result<(), Refusal>) -> String {
    match datagram.get(..4) {
        None => "harness 1 blocks - buf same".to_string(),
        Some(outer) if outer != OUTER => "harness 16 blocks - buf same".to_string(),
        Some(_) => read(session, datagram, 4, guard),
    }
}

/// The packet stands in `buffer` from `at` on; the buffer after the call is told whole. `guard` is asked about the number of
/// a packet that the crate reads; where it refuses, the buffer is put back as it was.
pub fn read(session: &Session, mut buffer: Vec<u8>, at: usize, guard: impl FnOnce(u32) -> Result<(), Refusal>) -> String {
    let before = buffer.clone();
    let end = caught(|| session.read(&mut buffer[at..])).and_then(|m| match guard(m.session_sequence_number) {
        Ok(()) => Ok(m),
        Err(refusal) => {
            buffer.clone_from(&before);
            Err(refusal)
        }
    });
    let after = if buffer == before { "same".to_string() } else { show(&buffer) };
    match end {
        Ok(m) => format!(
            "ok type {} id {:08x} seq {:08x} payload {} buf {after} blocks -",
            u8::from(m.ty),
            m.session_id,
            m.session_sequence_number,
            show(&m.payload)
        ),
        Err(refusal) => format!("{refusal} blocks - buf {after}"),
    }
}

/// The crate's buffer starts with the four outer bytes; `skip` of them are not asked for.
fn write(f: &[&[u8]], skip: usize) -> Option<String> {
    let [conf, integ, sik, iv, ty, id, seq, lent, payload] = f else { return None };
    let (session, iv) = (session(conf, integ, sik)?, hex_of(iv)?);
    let message = frame::message(number(ty, 255)? as u8, word(id)?, word(seq)?, hex(payload)?)?;
    let room = room(lent)?;
    let end: Result<Vec<u8>, Refusal> = caught(|| {
        let packet = session.write(iv, &message)?.split_off(skip);
        if packet.len() > room {
            return Err(Refusal::Harness(15, None));
        }
        Ok(packet)
    });
    Some(match end {
        Ok(packet) => format!("ok {}", show(&packet)),
        Err(refusal) => refusal.to_string(),
    })
}
