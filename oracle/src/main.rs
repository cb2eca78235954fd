//! One case to a line in, one answer to a line out: the protocol of `replay`, answered by the files of ipmi-rs.
//!
//! An answer says whose it is. `refused N` and `ok ..` are the crate's own, and so is `error NAME`, an error that has no number
//! here. `harness N` stands where the crate has no such refusal (room, step, lengths of Kg and password, hash limit, outer
//! header) and the rule is kept by this program.
//! `harness record` stands before the record of the numbers taken, which the crate does not keep.
//! `blocks -` stands where the crate does not count. `panic FILE:LINE MESSAGE` stands where the crate does not return.
//! `excluded` stands before what was written where the crate's types leave out a value of the case, which was put in here.
//! How a user is looked up is passed over: the crate always asks for the role 04.
pub use ipmi_rs_core::*;

// Much of what the session layer's files say is of no use here.
#[allow(dead_code, unused_imports)]
pub mod rmcp;

mod answers;
mod arrivals;
mod line;
mod messages;
mod refusal;
mod script;

#[derive(Debug)]
pub enum IpmiError<C, T> {
    Connection(C),
    Parse(T),
}

use std::io::{Read, Write};

fn main() {
    let args: Vec<String> = std::env::args().skip(1).collect();
    if let [verb, rest @ ..] = &args[..] {
        let done = (verb == "cost").then(|| rmcp::cost::run(rest)).flatten();
        return done.expect("cost read|write CONF INTEG LENGTH TURNS");
    }
    refusal::keep_panics();
    let mut input = Vec::new();
    std::io::stdin().read_to_end(&mut input).expect("standard input");
    if input.last() == Some(&b'\n') {
        input.pop();
    } else if input.is_empty() {
        return;
    }
    let mut out = std::io::BufWriter::new(std::io::stdout().lock());
    for case in input.split(|c| *c == b'\n') {
        let answer = answers::answer(case).unwrap_or_else(|| "bad line".to_string());
        writeln!(out, "{answer}").expect("standard output");
    }
}
