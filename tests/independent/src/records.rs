//! What files are made of: records of one byte of kind and a body whose length the kind fixes, read and written.

use crate::sketch::{Fault, Params, Refusal, Sketch};

const HEAD: u8 = 1;
pub const PACKETS: u8 = 2;
pub const BUCKET: u8 = 3;
pub const END: u8 = 4;
/// The head of a file of the profile with fingerprints.
const HEAD_WITH_FIFTH: u8 = 10;

pub struct Record<'a> {
    pub at: usize,
    pub kind: u8,
    pub body: &'a [u8],
}

impl Record<'_> {
    pub fn after(&self) -> usize {
        self.at + 1 + self.body.len()
    }

    pub fn refused(&self, fault: Fault) -> Refusal {
        fault.at(self.at)
    }
}

/// The record at an offset; FORM where it is missing (the offset is then the input's length), unknown or cut.
pub fn record(bytes: &[u8], at: usize) -> Result<Record<'_>, Refusal> {
    let whole = || {
        let kind = *bytes.get(at)?;
        let body = bytes.get(at + 1..at + 1 + body_length(kind)?)?;
        Some(Record { at, kind, body })
    };
    whole().ok_or(Fault::Form.at(at))
}

fn body_length(kind: u8) -> Option<usize> {
    match kind {
        HEAD => Some(37),
        PACKETS => Some(8),
        BUCKET => Some(12),
        END => Some(4),
        HEAD_WITH_FIFTH => Some(45),
        _ => None,
    }
}

/// The parameters in the head at an offset, which keep the rules, and the offset after it: FORM where no head is there, else PARAM.
pub fn head(bytes: &[u8], at: usize) -> Result<(Params, usize), Refusal> {
    let head = record(bytes, at)?;
    if head.kind != HEAD && head.kind != HEAD_WITH_FIFTH {
        return Err(head.refused(Fault::Form));
    }
    let pair = |i: usize| (number(head.body, 5 + 8 * i), number(head.body, 9 + 8 * i));
    let params = Params {
        d: i64::from(head.body[0]),
        m: number(head.body, 1),
        pairs: [pair(0), pair(1), pair(2), pair(3)],
        prime: 1,
        fifth: if head.kind == HEAD { (0, 0) } else { pair(4) },
        sort: 0,
    };
    // A head of kind 10 says that there are fingerprints, so that (0, 0) is no fifth pair there.
    let told = params.has_fingerprints() == (head.kind == HEAD_WITH_FIFTH);
    if !told || !params.keep_the_rules() {
        return Err(head.refused(Fault::Param));
    }
    Ok((params, head.after()))
}

/// Inserts the packets of a stream file from after its head on; the offset after its end. What was inserted before a
/// refusal stays in the sketch.
pub fn insert_packets(bytes: &[u8], start: usize, sketch: &mut Sketch) -> Result<usize, Refusal> {
    let mut records = 0;
    let mut at = start;
    loop {
        let next = record(bytes, at)?;
        match next.kind {
            PACKETS => {
                let (flow, number) = (number(next.body, 0), number(next.body, 4));
                sketch.insert(flow, number).map_err(|refusal| next.refused(refusal.fault))?;
                records += 1;
                at = next.after();
            }
            END if number(next.body, 0) == records => return Ok(next.after()),
            // A wrong end count, or a kind that is misplaced here: its fields are not judged.
            _ => return Err(next.refused(Fault::Form)),
        }
    }
}

/// Nothing may stand after the end of a file.
pub fn judge_rest(bytes: &[u8], at: usize) -> Result<(), Refusal> {
    if at < bytes.len() {
        return Err(Fault::Form.at(at));
    }
    Ok(())
}

/// The four bytes at an offset, big-endian.
pub fn number(body: &[u8], at: usize) -> i64 {
    body[at..at + 4].iter().fold(0, |number, &byte| number * 256 + i64::from(byte))
}

/// The four bytes at an offset, big-endian, in two's complement.
pub fn signed(body: &[u8], at: usize) -> i64 {
    let number = number(body, at);
    if number < 1 << 31 { number } else { number - (1 << 32) }
}

/// A head's bytes. In the plain profile there is no fifth pair in them.
pub fn head_bytes(params: &Params) -> Vec<u8> {
    let kind = if params.has_fingerprints() { HEAD_WITH_FIFTH } else { HEAD };
    let mut bytes = vec![kind, params.d as u8];
    put(&mut bytes, params.m);
    let fifth = params.has_fingerprints().then_some(params.fifth);
    for (a, b) in params.pairs.into_iter().chain(fifth) {
        put(&mut bytes, a);
        put(&mut bytes, b);
    }
    bytes
}

/// The bytes of a record whose body is made of numbers of four bytes.
pub fn record_bytes(kind: u8, numbers: &[i64]) -> Vec<u8> {
    let mut bytes = vec![kind];
    for &number in numbers {
        put(&mut bytes, number);
    }
    bytes
}

fn put(bytes: &mut Vec<u8>, number: i64) {
    bytes.extend(number.rem_euclid(1 << 32).to_be_bytes()[4..].iter());
}
