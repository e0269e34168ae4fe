//! The calls of the library over lent slices: what each refuses and in which order, and what it does where it does not refuse.
//!
//! A call works on a copy of the lent sketch, which is put back only where nothing was refused.

use crate::records::{self, BUCKET, END, PACKETS};
use crate::sketch::{judge_number, Bucket, Fault, Params, Refusal, Sketch};
use crate::walk::{self, Walked};

/// The longest table, and the most packets that a stream is written from.
const MOST_LISTED: usize = 65536;

/// A sketch as it is lent: its parameters and two slices, which may be of any length and hold anything.
pub struct Lent<'a> {
    pub params: Params,
    pub counts: &'a mut [i64],
    pub idsums: &'a mut [i64],
}

impl Lent<'_> {
    fn judge_params(&self) -> Result<(), Refusal> {
        refuse_if(!self.params.keep_the_rules(), Fault::Param)
    }

    fn judge_lengths(&self) -> Result<(), Refusal> {
        let size = (self.params.d * self.params.m) as usize;
        refuse_if(self.counts.len() != size || self.idsums.len() != size, Fault::Length)
    }

    /// The lent sketch, where its parameters and lengths are right.
    fn sketch(&self) -> Result<Sketch, Refusal> {
        self.judge_params()?;
        self.judge_lengths()?;
        let buckets = self.counts.iter().zip(self.idsums.iter());
        Ok(Sketch {
            params: self.params,
            buckets: buckets.map(|(&count, &idsum)| Bucket { count, idsum }).collect(),
        })
    }

    fn put_back(&mut self, sketch: &Sketch) {
        for (index, bucket) in sketch.buckets.iter().enumerate() {
            self.counts[index] = bucket.count;
            self.idsums[index] = bucket.idsum;
        }
    }

    pub fn fresh(&mut self) -> Result<(), Refusal> {
        let sketch = self.sketch()?;
        self.put_back(&Sketch::fresh(sketch.params));
        Ok(())
    }

    pub fn insert(&mut self, flow: i64, number: i64) -> Result<(), Refusal> {
        let mut sketch = self.sketch()?;
        sketch.insert(flow, number)?;
        self.put_back(&sketch);
        Ok(())
    }

    pub fn withdraw(&mut self, flow: i64, number: i64) -> Result<(), Refusal> {
        let mut sketch = self.sketch()?;
        sketch.withdraw(flow, number)?;
        self.put_back(&sketch);
        Ok(())
    }

    /// Inserts packets in turn, or none of them; the first that is refused decides.
    pub fn insert_all(&mut self, flows: &[i64], numbers: &[i64]) -> Result<(), Refusal> {
        let mut sketch = self.sketch()?;
        refuse_if(flows.len() != numbers.len(), Fault::Length)?;
        for (&flow, &number) in flows.iter().zip(numbers) {
            sketch.insert(flow, number)?;
        }
        self.put_back(&sketch);
        Ok(())
    }

    /// Adds another sketch (sign 1) or subtracts it (sign -1).
    pub fn combine(&mut self, sign: i64, other: &Lent) -> Result<(), Refusal> {
        self.judge_params()?;
        other.judge_params()?;
        refuse_if(self.params != other.params, Fault::Mismatch)?;
        let mut sketch = self.sketch()?;
        sketch.combine(sign, &other.sketch()?)?;
        self.put_back(&sketch);
        Ok(())
    }

    /// Folds the sketch to m2 buckets an array, and gives its new parameters. It then stands at the front of the lent slices, and the
    /// freed room behind it is zero.
    pub fn fold(&mut self, m2: i64) -> Result<Params, Refusal> {
        let folded = self.sketch()?.fold(m2)?;
        self.counts.fill(0);
        self.idsums.fill(0);
        self.put_back(&folded);
        Ok(folded.params)
    }

    pub fn peel(&mut self, table: Table, queue: &mut [i64], marks: &mut [i64], allowance: usize) -> Result<Walked, Refusal> {
        let mut sketch = self.sketch()?;
        let size = sketch.buckets.len();
        let slots = table.flows.len();
        refuse_if(queue.len() != size || marks.len() != size, Fault::Length)?;
        refuse_if(table.counts.len() != slots || slots > MOST_LISTED, Fault::Length)?;
        sketch.judge_damage()?;

        let walked = walk::walk(&mut sketch, slots, allowance);
        self.put_back(&sketch);
        table.fill(&walked);
        queue.fill(0);
        marks.fill(0);
        Ok(walked)
    }

    /// Inserts the packets of a stream file.
    pub fn read_stream(&mut self, bytes: &[u8]) -> Result<(), Refusal> {
        let after_head = self.judge_head(bytes)?;
        let mut sketch = self.sketch()?;
        sketch.judge_damage()?;
        let after = records::insert_packets(bytes, after_head, &mut sketch)?;
        records::judge_rest(bytes, after)?;
        self.put_back(&sketch);
        Ok(())
    }

    /// Replaces the sketch by that of a sketch file.
    pub fn read_sketch(&mut self, bytes: &[u8]) -> Result<(), Refusal> {
        let after_head = self.judge_head(bytes)?;
        self.judge_lengths()?;
        let mut sketch = Sketch::fresh(self.params);
        let after = fill_buckets(bytes, after_head, &mut sketch)?;
        records::judge_rest(bytes, after)?;
        self.put_back(&sketch);
        Ok(())
    }

    /// A file's head, its parameters and the given ones; the offset after the head.
    fn judge_head(&self, bytes: &[u8]) -> Result<usize, Refusal> {
        let (params, after) = records::head(bytes, 0)?;
        self.judge_params()?;
        refuse_if(params != self.params, Fault::Mismatch)?;
        Ok(after)
    }

    /// Writes the sketch file to the front of the output; how long it is.
    pub fn write_sketch(&self, output: &mut [i64]) -> Result<usize, Refusal> {
        let sketch = self.sketch()?;
        let mut file = records::head_bytes(&self.params);
        let mut written = 0;
        for (index, bucket) in sketch.buckets.iter().enumerate() {
            if !bucket.is_all_zero() {
                file.extend(records::record_bytes(BUCKET, &[index as i64, bucket.count, bucket.idsum]));
                written += 1;
            }
        }
        file.extend(records::record_bytes(END, &[written]));
        refuse_if(file.len() > output.len(), Fault::Length)?;
        sketch.judge_damage()?;
        put_file(output, &file)
    }
}

/// Reads the buckets of a sketch file from after its head on into a sketch of zeros; the offset after its end.
fn fill_buckets(bytes: &[u8], start: usize, sketch: &mut Sketch) -> Result<usize, Refusal> {
    let mut records = 0;
    let mut at = start;
    // The lowest index that the next bucket may have.
    let mut due = 0;
    loop {
        let next = records::record(bytes, at)?;
        match next.kind {
            BUCKET => {
                let index = records::number(next.body, 0);
                let bucket = Bucket { count: records::signed(next.body, 4), idsum: records::number(next.body, 8) };
                // The lowest number within a record decides, so DAMAGE comes before the index.
                if bucket.is_damaged() {
                    return Err(next.refused(Fault::Damage));
                }
                if index < due || index >= sketch.buckets.len() as i64 || bucket.is_all_zero() {
                    return Err(next.refused(Fault::Form));
                }
                sketch.buckets[index as usize] = bucket;
                due = index + 1;
                records += 1;
                at = next.after();
            }
            END if records::number(next.body, 0) == records => return Ok(next.after()),
            _ => return Err(next.refused(Fault::Form)),
        }
    }
}

/// Writes a stream file to the front of the output; how long it is.
pub fn write_stream(params: &Params, flows: &[i64], numbers: &[i64], output: &mut [i64]) -> Result<usize, Refusal> {
    refuse_if(!params.keep_the_rules(), Fault::Param)?;
    refuse_if(flows.len() != numbers.len() || flows.len() > MOST_LISTED, Fault::Length)?;
    let mut file = records::head_bytes(params);
    for (&flow, &number) in flows.iter().zip(numbers) {
        file.extend(records::record_bytes(PACKETS, &[flow, number]));
    }
    file.extend(records::record_bytes(END, &[flows.len() as i64]));
    refuse_if(file.len() > output.len(), Fault::Length)?;
    // A writer judges as any call does: the lowest number over all entries, so all flows before the first number.
    for &flow in flows {
        params.judge_flow(flow)?;
    }
    for &number in numbers {
        judge_number(number)?;
    }
    put_file(output, &file)
}

fn put_file(output: &mut [i64], file: &[u8]) -> Result<usize, Refusal> {
    for (place, &byte) in output.iter_mut().zip(file) {
        *place = i64::from(byte);
    }
    Ok(file.len())
}

/// Where a flow stands in an array: its position, and its index in the whole sketch.
pub fn place(params: &Params, array: i64, flow: i64) -> Result<(i64, i64), Refusal> {
    refuse_if(!params.keep_the_rules() || array < 1 || array > params.d, Fault::Param)?;
    params.judge_flow(flow)?;
    let sketched = params.sketched(flow);
    Ok((params.position(array, sketched), params.index(array, sketched)))
}

/// The two table slices.
pub struct Table<'a> {
    pub flows: &'a mut [i64],
    pub counts: &'a mut [i64],
}

impl Table<'_> {
    /// The entries of a walk, and zeros after them.
    fn fill(self, walked: &Walked) {
        self.flows.fill(0);
        self.counts.fill(0);
        for (slot, entry) in walked.entries.iter().enumerate() {
            self.flows[slot] = entry.flow;
            self.counts[slot] = entry.count;
        }
    }
}

fn refuse_if(wrong: bool, fault: Fault) -> Result<(), Refusal> {
    if wrong { Err(fault.refused()) } else { Ok(()) }
}
