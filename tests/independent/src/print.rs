//! The lines of the report, and those of a script's answers that are the same.

use crate::sketch::{Bucket, Refusal, Sketch};
use crate::walk::{Ending, Entry, Walked};

pub fn refused(refusal: &Refusal) -> String {
    format!("refused {} at {}\n", refusal.fault as i32, refusal.at)
}

/// The report of a walk and of what it left in the sketch.
pub fn walked(walked: &Walked, left_in: &Sketch) -> String {
    let mut lines = String::new();
    for entry in &walked.entries {
        lines += &loss(entry);
    }
    for (index, bucket) in left_in.buckets.iter().enumerate() {
        lines += &left(index, bucket);
    }
    lines + &end(walked)
}

pub fn loss(entry: &Entry) -> String {
    format!("loss {} {}\n", entry.flow, entry.count)
}

/// The line of a bucket; none where it is all zero.
pub fn left(index: usize, bucket: &Bucket) -> String {
    if bucket.is_all_zero() {
        return String::new();
    }
    format!("left {} {} {}\n", index, bucket.count, bucket.idsum)
}

pub fn end(walked: &Walked) -> String {
    format!("end {} pops {} lost {} extra {}\n", word(&walked.ending), walked.pops, walked.lost, walked.extra)
}

fn word(ending: &Ending) -> &'static str {
    match ending {
        Ending::Clean => "clean",
        Ending::Stuck => "stuck",
        Ending::Spent => "spent",
        Ending::Range => "range",
        Ending::Full => "full",
    }
}
