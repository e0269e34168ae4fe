//! The memory of a script: the slices that are lent, each with its length, and the parameters of both sketches.

use crate::library::Lent;
use crate::sketch::Params;

/// One slot more than the largest sketch has buckets.
const MOST: usize = 65537;

/// One byte more than the longest sketch file has.
const MOST_OUTPUT: usize = 852020;

/// The numbers of the slices: those of the chosen sketch, the table, the queue and the marks, a list of packets, the output.
const COUNTS: i64 = 0;
const IDSUMS: i64 = 1;
const TABLE_FLOWS: i64 = 2;
const TABLE_COUNTS: i64 = 3;
const QUEUE: i64 = 4;
const MARKS: i64 = 5;
const PACKET_FLOWS: i64 = 6;
const PACKET_NUMBERS: i64 = 7;
const OUTPUT: i64 = 8;

/// What the numbers of a slice may be.
pub enum Kind {
    Signed,
    Unsigned,
    Byte,
}

/// None where there is no slice of this number.
pub fn kind(slice: i64) -> Option<Kind> {
    match slice {
        COUNTS | TABLE_COUNTS => Some(Kind::Signed),
        IDSUMS | TABLE_FLOWS | QUEUE..=PACKET_NUMBERS => Some(Kind::Unsigned),
        OUTPUT => Some(Kind::Byte),
        _ => None,
    }
}

/// Room for numbers, the first of which are lent.
struct Slice {
    room: Vec<i64>,
    length: usize,
}

impl Slice {
    fn new(most: usize) -> Slice {
        Slice { room: vec![0; most], length: 0 }
    }

    fn lent(&self) -> &[i64] {
        &self.room[..self.length]
    }

    fn lent_mut(&mut self) -> &mut [i64] {
        &mut self.room[..self.length]
    }
}

pub struct Memory {
    pub params: [Params; 2],
    /// The sketch that a command works on: 0 for the first, 1 for the second.
    pub chosen: usize,
    /// The length of the file that was last written.
    pub written: usize,
    counts: [Slice; 2],
    idsums: [Slice; 2],
    table_flows: Slice,
    table_counts: Slice,
    queue: Slice,
    marks: Slice,
    packet_flows: Slice,
    packet_numbers: Slice,
    output: Slice,
}

/// All slices as a call is lent them; `sketch` is the chosen one.
pub struct Slices<'a> {
    pub sketch: Lent<'a>,
    pub other: Lent<'a>,
    pub table_flows: &'a mut [i64],
    pub table_counts: &'a mut [i64],
    pub queue: &'a mut [i64],
    pub marks: &'a mut [i64],
    pub packet_flows: &'a [i64],
    pub packet_numbers: &'a [i64],
    pub output: &'a mut [i64],
}

impl Memory {
    /// Parameters, lengths and content are all 0.
    pub fn new() -> Memory {
        let none = Params { d: 0, m: 0, pairs: [(0, 0); 4], prime: 0, fifth: (0, 0), sort: 0 };
        let slice = || Slice::new(MOST);
        Memory {
            params: [none, none],
            chosen: 0,
            written: 0,
            counts: [slice(), slice()],
            idsums: [slice(), slice()],
            table_flows: slice(),
            table_counts: slice(),
            queue: slice(),
            marks: slice(),
            packet_flows: slice(),
            packet_numbers: slice(),
            output: Slice::new(MOST_OUTPUT),
        }
    }

    fn slice(&mut self, slice: i64) -> Option<&mut Slice> {
        match slice {
            COUNTS => Some(&mut self.counts[self.chosen]),
            IDSUMS => Some(&mut self.idsums[self.chosen]),
            TABLE_FLOWS => Some(&mut self.table_flows),
            TABLE_COUNTS => Some(&mut self.table_counts),
            QUEUE => Some(&mut self.queue),
            MARKS => Some(&mut self.marks),
            PACKET_FLOWS => Some(&mut self.packet_flows),
            PACKET_NUMBERS => Some(&mut self.packet_numbers),
            OUTPUT => Some(&mut self.output),
            _ => None,
        }
    }

    /// A slice is at most as long as its room; one that there is not has no length to set.
    pub fn set_length(&mut self, slice: i64, length: usize) {
        if let Some(slice) = self.slice(slice) {
            slice.length = length.min(slice.room.len());
        }
    }

    /// Gives the chosen sketch these parameters, and lends its slices as long as they say.
    pub fn resize(&mut self, params: Params) {
        self.params[self.chosen] = params;
        for slice in [COUNTS, IDSUMS] {
            self.set_length(slice, (params.d * params.m) as usize);
        }
    }

    /// What is lent of a slice; nothing of one that there is not.
    pub fn lent_mut(&mut self, slice: i64) -> &mut [i64] {
        self.slice(slice).map_or(&mut [], Slice::lent_mut)
    }

    /// The file that was last written, or as much of it as is lent.
    pub fn file(&self) -> Vec<u8> {
        self.output.lent().iter().take(self.written).map(|&byte| byte as u8).collect()
    }

    /// The chosen sketch.
    pub fn sketch(&mut self) -> Lent<'_> {
        self.lend().sketch
    }

    pub fn lend(&mut self) -> Slices<'_> {
        let [first_counts, second_counts] = &mut self.counts;
        let [first_idsums, second_idsums] = &mut self.idsums;
        let [first_params, second_params] = self.params;
        let lent = |params, counts, idsums| Lent { params, counts: Slice::lent_mut(counts), idsums: Slice::lent_mut(idsums) };
        let mut sketches = [lent(first_params, first_counts, first_idsums), lent(second_params, second_counts, second_idsums)];
        if self.chosen == 1 {
            sketches.swap(0, 1);
        }
        let [sketch, other] = sketches;
        Slices {
            sketch,
            other,
            table_flows: self.table_flows.lent_mut(),
            table_counts: self.table_counts.lent_mut(),
            queue: self.queue.lent_mut(),
            marks: self.marks.lent_mut(),
            packet_flows: self.packet_flows.lent(),
            packet_numbers: self.packet_numbers.lent(),
            output: self.output.lent_mut(),
        }
    }
}
