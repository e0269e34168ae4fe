//! Scripts: commands that set parameters, lengths and numbers in lent slices, call the library on them, and show what they hold.
//! tests/README.md says what a script is made of and what each command prints.

use crate::library::{self, Lent, Table};
use crate::memory::{self, Memory};
use crate::print;
use crate::records::{self, number, signed};
use crate::sketch::{Bucket, Params, Refusal};
use crate::walk::{Entry, Walked};

/// As much of a script as is read.
const MOST_BYTES: usize = 65536;

const PARAMS: u8 = 1;
const LENGTH: u8 = 2;
const STORE: u8 = 3;
const FILL: u8 = 4;
const FRESH: u8 = 5;
const INSERT: u8 = 6;
const INSERT_ALL: u8 = 7;
const ADD: u8 = 8;
const SUBTRACT: u8 = 9;
const PEEL: u8 = 10;
const READ_STREAM: u8 = 11;
const READ_SKETCH: u8 = 12;
const REREAD_STREAM: u8 = 13;
const REREAD_SKETCH: u8 = 14;
const WRITE_STREAM: u8 = 15;
const WRITE_SKETCH: u8 = 16;
const POSITION: u8 = 17;
const INDEX: u8 = 18;
const SHOW: u8 = 19;
const WITHDRAW: u8 = 20;
const HEAD: u8 = 21;
const HEAD_BACK: u8 = 22;
const FOLD: u8 = 23;

/// What a whole script prints.
pub fn run(bytes: &[u8]) -> String {
    let script = &bytes[..bytes.len().min(MOST_BYTES)];
    let mut memory = Memory::new();
    let mut lines = String::new();
    let mut at = 0;
    while at < script.len() {
        // The highest bit chooses the second sketch.
        let (name, second) = (script[at] % 128, script[at] >= 128);
        let Some(length) = length(name, &script[at + 1..]) else {
            return lines + &format!("unknown command at {at}\n");
        };
        let Some(given) = script.get(at + 1..at + 1 + length) else {
            return lines + &format!("cut command at {at}\n");
        };
        memory.chosen = usize::from(second);
        lines += &command(&mut memory, name, given);
        at += 1 + length;
    }
    lines + &format!("end at {at}\n")
}

/// How many bytes belong to a command; a length that is cut itself counts as 0. None for a command that is not known.
fn length(name: u8, rest: &[u8]) -> Option<usize> {
    let told = |at: usize| if rest.len() < at + 4 { 0 } else { number(rest, at) as usize };
    match name {
        PARAMS => Some(56),
        LENGTH | INSERT | WITHDRAW | POSITION | INDEX => Some(8),
        STORE => Some(12 + 4 * told(8)),
        FILL => Some(16),
        PEEL | FOLD => Some(4),
        READ_STREAM | READ_SKETCH | HEAD => Some(4 + told(0)),
        FRESH | INSERT_ALL | ADD | SUBTRACT | REREAD_STREAM | REREAD_SKETCH | WRITE_STREAM | WRITE_SKETCH | SHOW | HEAD_BACK => {
            Some(0)
        }
        _ => None,
    }
}

/// Does one command; what it prints.
fn command(memory: &mut Memory, name: u8, given: &[u8]) -> String {
    match name {
        PARAMS => {
            memory.params[memory.chosen] = params(given);
            "params done\n".into()
        }
        LENGTH => {
            memory.set_length(number(given, 0), number(given, 4) as usize);
            "length done\n".into()
        }
        STORE => {
            store(memory, given, 4);
            "store done\n".into()
        }
        FILL => {
            store(memory, given, 0);
            "fill done\n".into()
        }
        SHOW => show(memory),
        INSERT_ALL | ADD | SUBTRACT | WRITE_STREAM | WRITE_SKETCH | PEEL => on_many_slices(memory, name, given),
        POSITION | INDEX => place(&memory.params[memory.chosen], name, given),
        HEAD => answer("head", head(&given[4..])),
        HEAD_BACK => answer("head back", head(&memory.file())),
        FOLD => fold(memory, number(given, 0)),
        _ => on_the_sketch(memory, name, given),
    }
}

fn params(given: &[u8]) -> Params {
    let pair = |at: usize| (number(given, at), number(given, at + 4));
    Params {
        d: number(given, 0),
        m: number(given, 4),
        pairs: [pair(8), pair(16), pair(24), pair(32)],
        prime: number(given, 40),
        fifth: pair(44),
        sort: number(given, 52),
    }
}

/// Puts numbers into a slice, each `step` bytes after the one before: with step 0 the same number everywhere. What would
/// lie past the slice's end is left out.
fn store(memory: &mut Memory, given: &[u8], step: usize) {
    let (slice, from, many) = (number(given, 0), number(given, 4) as usize, number(given, 8) as usize);
    let Some(kind) = memory::kind(slice) else {
        return;
    };
    let places = memory.lent_mut(slice).iter_mut().skip(from).take(many);
    for (i, place) in places.enumerate() {
        let at = 12 + step * i;
        *place = match kind {
            memory::Kind::Signed => signed(given, at),
            memory::Kind::Unsigned => number(given, at),
            memory::Kind::Byte => number(given, at) % 256,
        };
    }
}

fn place(params: &Params, name: u8, given: &[u8]) -> String {
    let (array, flow) = (number(given, 0), number(given, 4));
    let found = library::place(params, array, flow);
    if name == POSITION {
        answer("position", found.map(|(position, _)| position.to_string()))
    } else {
        answer("index", found.map(|(_, index)| index.to_string()))
    }
}

/// What the head of a file says.
fn head(bytes: &[u8]) -> Result<String, Refusal> {
    let (params, _) = records::head(bytes, 0)?;
    Ok(told_params(&params))
}

/// The answer of a call that gives parameters.
fn told_params(params: &Params) -> String {
    let pairs: String = params.pairs.iter().map(|(a, b)| format!(" {a} {b}")).collect();
    let Params { d, m, prime, fifth: (a, b), sort, .. } = params;
    format!("done d {d} m {m} pairs{pairs} prime {prime} fifth {a} {b} sort {sort}")
}

/// Folds the chosen sketch. Where that is done, later commands are lent the folded one alone.
fn fold(memory: &mut Memory, m2: i64) -> String {
    let folded = memory.sketch().fold(m2);
    if let Ok(params) = folded {
        memory.resize(params);
    }
    answer("fold", folded.map(|params| told_params(&params)))
}

/// Commands that work on the chosen sketch alone.
fn on_the_sketch(memory: &mut Memory, name: u8, given: &[u8]) -> String {
    let written = memory.file();
    let mut sketch = memory.sketch();
    match name {
        FRESH => answer("fresh", done(sketch.fresh())),
        INSERT => answer("insert", done(sketch.insert(number(given, 0), number(given, 4)))),
        WITHDRAW => answer("withdraw", done(sketch.withdraw(number(given, 0), number(given, 4)))),
        READ_STREAM => answer("read stream", done(sketch.read_stream(&given[4..]))),
        READ_SKETCH => answer("read sketch", done(sketch.read_sketch(&given[4..]))),
        REREAD_STREAM => answer("read stream back", done(sketch.read_stream(&written))),
        _ => answer("read sketch back", done(sketch.read_sketch(&written))),
    }
}

/// Commands that work on other slices beside the chosen sketch.
fn on_many_slices(memory: &mut Memory, name: u8, given: &[u8]) -> String {
    let mut lent = memory.lend();
    match name {
        INSERT_ALL => answer("insert all", done(lent.sketch.insert_all(lent.packet_flows, lent.packet_numbers))),
        ADD => answer("add", done(lent.sketch.combine(1, &lent.other))),
        SUBTRACT => answer("subtract", done(lent.sketch.combine(-1, &lent.other))),
        PEEL => {
            let table = Table { flows: lent.table_flows, counts: lent.table_counts };
            let peeled = lent.sketch.peel(table, lent.queue, lent.marks, number(given, 0) as usize);
            let told = |walked: Walked| format!("entries {} {}", walked.entries.len(), print::end(&walked).trim_end());
            answer("peel", peeled.map(told))
        }
        WRITE_STREAM => {
            let told = library::write_stream(&lent.sketch.params, lent.packet_flows, lent.packet_numbers, lent.output);
            written(memory, "write stream", told)
        }
        _ => {
            let told = lent.sketch.write_sketch(lent.output);
            written(memory, "write sketch", told)
        }
    }
}

/// The answer of a writer. A file that was written can be read back.
fn written(memory: &mut Memory, name: &str, told: Result<usize, Refusal>) -> String {
    if let Ok(length) = told {
        memory.written = length;
    }
    answer(name, told.map(|length| format!("{length} bytes")))
}

fn done(told: Result<(), Refusal>) -> Result<String, Refusal> {
    told.map(|()| "done".into())
}

fn answer(name: &str, told: Result<String, Refusal>) -> String {
    match told {
        Ok(told) => format!("{name} {told}\n"),
        Err(refusal) => format!("{name} {}", print::refused(&refusal)),
    }
}

/// What the slices of the chosen sketch and the others hold.
fn show(memory: &mut Memory) -> String {
    let lent = memory.lend();
    let Lent { counts, idsums, .. } = &lent.sketch;
    let mut lines = format!("show done\ncounts {} idsums {}\n", counts.len(), idsums.len());
    for index in 0..counts.len().max(idsums.len()) {
        lines += &print::left(index, &Bucket { count: at(counts, index), idsum: at(idsums, index) });
    }
    let (flows, numbers) = (&lent.table_flows, &lent.table_counts);
    lines += &format!("flows {} numbers {}\n", flows.len(), numbers.len());
    for slot in 0..flows.len().max(numbers.len()) {
        let entry = Entry { flow: at(flows, slot), count: at(numbers, slot) };
        if entry.flow != 0 || entry.count != 0 {
            lines += &format!("slot {slot} {}", print::loss(&entry));
        }
    }
    lines + &slots("queue", lent.queue) + &slots("marks", lent.marks) + &output(lent.output)
}

/// A slot past a slice's end counts as 0.
fn at(slice: &[i64], index: usize) -> i64 {
    slice.get(index).copied().unwrap_or(0)
}

fn slots(name: &str, slice: &[i64]) -> String {
    let mut lines = format!("{name} {}\n", slice.len());
    for (slot, &value) in slice.iter().enumerate() {
        if value != 0 {
            lines += &format!("slot {slot} {value}\n");
        }
    }
    lines
}

/// The output's length, a sum over all its bytes, and the bytes where they are few.
fn output(bytes: &[i64]) -> String {
    let sum = bytes.iter().fold(5381, |sum, byte| (sum * 33 + byte) % (1 << 32));
    let mut line = format!("output {} sum {sum}", bytes.len());
    if bytes.len() <= 256 {
        line += " bytes ";
        for byte in bytes {
            line += &format!("{byte:02x}");
        }
    }
    line + "\n"
}
