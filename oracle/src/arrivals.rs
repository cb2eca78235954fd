//! The numbers taken, beside a session. The crate has no such record, only a note that the number should be looked at
//! (`v2_0/mod.rs:450`), so this program keeps one; `harness record` stands before it in every answer.
use crate::answers::{read, read_datagram, session};
use crate::line::{hex, word};
use crate::refusal::Refusal;
use std::collections::BTreeSet;

const KEPT: i64 = 32;

/// The numbers that are marked. A record made by hand can mark some below zero, which never arrive.
struct Arrivals {
    highest: i64,
    marked: BTreeSet<i64>,
}

impl Arrivals {
    fn of(highest: &[u8], seen: &[u8]) -> Option<Arrivals> {
        let (highest, seen) = (i64::from(word(highest)?), word(seen)?);
        let marked = (0..KEPT).filter(|k| seen & 1 << k != 0).map(|k| highest - k).collect();
        Some(Arrivals { highest, marked })
    }

    fn take(&mut self, number: u32) -> Result<(), Refusal> {
        let n = i64::from(number);
        if n == 0 || n <= self.highest - KEPT {
            return Err(Refusal::Harness(39, None));
        }
        if !self.marked.insert(n) {
            return Err(Refusal::Harness(38, None));
        }
        self.highest = self.highest.max(n);
        self.marked = self.marked.split_off(&(self.highest - KEPT + 1));
        Ok(())
    }

    fn arrive(&mut self, number: u32) -> String {
        self.take(number).map_or_else(|refusal| refusal.to_string(), |()| "ok".to_string())
    }

    fn shown(&self) -> String {
        let seen: u32 = self.marked.iter().map(|n| 1 << (self.highest - n)).sum();
        format!(" harness record {:08x} {seen:08x}", self.highest)
    }

    fn counted(&self) -> String {
        format!("{} count {}", self.shown(), self.marked.len())
    }
}

pub fn answer(verb: &[u8], fields: &[&[u8]]) -> Option<String> {
    match (verb, fields) {
        (b"arrive", [highest, seen, number]) => {
            let mut arrivals = Arrivals::of(highest, seen)?;
            Some(arrivals.arrive(word(number)?) + &arrivals.counted())
        }
        (b"arrivals", numbers @ [_, ..]) => {
            let mut arrivals = Arrivals { highest: 0, marked: BTreeSet::new() };
            let numbers = numbers.iter().map(|n| word(n)).collect::<Option<Vec<_>>>()?;
            let ends: Vec<_> = numbers.into_iter().map(|n| arrivals.arrive(n)).collect();
            Some(ends.join("; ") + &arrivals.counted())
        }
        (b"once", [conf, integ, sik, highest, seen, packet]) => {
            let (session, mut arrivals) = (session(conf, integ, sik)?, Arrivals::of(highest, seen)?);
            Some(read(&session, hex(packet)?, 0, |n| arrivals.take(n)) + &arrivals.shown())
        }
        (b"once-datagram", [conf, integ, sik, highest, seen, datagram]) => {
            let (session, mut arrivals) = (session(conf, integ, sik)?, Arrivals::of(highest, seen)?);
            Some(read_datagram(&session, hex(datagram)?, |n| arrivals.take(n)) + &arrivals.shown())
        }
        _ => None,
    }
}
