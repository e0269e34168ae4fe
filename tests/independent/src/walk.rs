//! The walk: the purity test, the five endings, and the table of flows that the walk takes out of a sketch.

use crate::sketch::{Bucket, Params, Sketch, MOST, P};
use std::collections::{HashMap, VecDeque};

pub enum Ending {
    Clean,
    Stuck,
    Spent,
    Range,
    Full,
}

pub struct Entry {
    pub flow: i64,
    pub count: i64,
}

pub struct Walked {
    pub ending: Ending,
    pub entries: Vec<Entry>,
    pub lost: u64,
    pub extra: u64,
    pub pops: usize,
}

/// Walks over a sketch with a table of `slots` entries and at most `allowance` pops; what remains stays in the sketch.
pub fn walk(sketch: &mut Sketch, slots: usize, allowance: usize) -> Walked {
    let size = sketch.buckets.len();
    let mut queue: VecDeque<usize> = (0..size).filter(|&index| sketch.buckets[index].count != 0).collect();
    let mut waiting: Vec<bool> = sketch.buckets.iter().map(|bucket| bucket.count != 0).collect();
    let mut entries: Vec<Entry> = Vec::new();
    let mut slot_of: HashMap<i64, usize> = HashMap::new();
    let mut pops = 0;

    let ending = loop {
        if sketch.buckets.iter().all(Bucket::is_all_zero) {
            break Ending::Clean;
        }
        if queue.is_empty() {
            break Ending::Stuck;
        }
        if pops == allowance {
            break Ending::Spent;
        }
        let index = queue.pop_front().expect("the queue was just seen not to be empty");
        waiting[index] = false;
        pops += 1;

        // Read once: the popped bucket is among those that the take changes.
        let read = sketch.buckets[index];
        let Some((flow, sketched)) = pure(&sketch.params, index, read) else {
            continue;
        };

        let indexes = sketch.params.indexes(sketched);
        let slot = slot_of.get(&flow).copied();
        // The whole take is judged before any of it is done. A new entry's count is a bucket's, so it is in its limits.
        let leaves = |count: i64| !(-MOST..=MOST).contains(&count);
        if indexes.iter().any(|&each| leaves(sketch.buckets[each].count - read.count))
            || slot.is_some_and(|slot| leaves(entries[slot].count + read.count))
        {
            break Ending::Range;
        }
        if slot.is_none() && entries.len() == slots {
            break Ending::Full;
        }

        for &each in &indexes {
            let bucket = &mut sketch.buckets[each];
            bucket.count -= read.count;
            bucket.idsum = (bucket.idsum - read.idsum).rem_euclid(P);
        }
        match slot {
            Some(slot) => entries[slot].count += read.count,
            None => {
                slot_of.insert(flow, entries.len());
                entries.push(Entry { flow, count: read.count });
            }
        }
        for each in indexes {
            if sketch.buckets[each].count != 0 && !waiting[each] {
                waiting[each] = true;
                queue.push_back(each);
            }
        }
    };

    // The close: until here an entry whose count became 0 kept its slot.
    entries.retain(|entry| entry.count != 0);
    let (lost, extra): (Vec<i64>, Vec<i64>) = entries.iter().map(|entry| entry.count).partition(|&count| count > 0);
    let sum = |counts: Vec<i64>| counts.into_iter().map(i64::unsigned_abs).sum();
    Walked { ending, entries, lost: sum(lost), extra: sum(extra), pops }
}

/// The flow of a pure bucket, and what is sketched for it. The number that comes out has to stand in this place and to be one that is
/// sketched for a flow: not 0, nor with fingerprints one whose last eight bits are not those of the flow before them.
fn pure(params: &Params, index: usize, bucket: Bucket) -> Option<(i64, i64)> {
    if bucket.count == 0 {
        return None;
    }
    let sketched = inverse(bucket.count.rem_euclid(P)) * bucket.idsum % P;
    let array = index as i64 / params.m + 1;
    let position = index as i64 % params.m;
    if params.position(array, sketched) != position {
        return None;
    }
    params.flow_of(sketched).map(|flow| (flow, sketched))
}

/// The inverse of 1..p-1 modulo p: its power p - 2, by Fermat.
fn inverse(number: i64) -> i64 {
    let mut power = 1;
    let mut square = number;
    let mut exponent = P - 2;
    while exponent > 0 {
        if exponent % 2 == 1 {
            power = power * square % P;
        }
        square = square * square % P;
        exponent /= 2;
    }
    power
}
