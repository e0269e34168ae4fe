//! The input of the report: two stream files, one directly after the other, judged record by record until the first fault.

use crate::records;
use crate::sketch::{Fault, Params, Refusal, Sketch};

/// The most buckets of a sketch that the report accepts.
const MOST_BUCKETS: i64 = 1536;

/// The upstream and the downstream sketch.
pub fn read(bytes: &[u8]) -> Result<(Sketch, Sketch), Refusal> {
    let (upstream, at) = stream(bytes, 0, None)?;
    let (downstream, at) = stream(bytes, at, Some(&upstream.params))?;
    records::judge_rest(bytes, at)?;
    Ok((upstream, downstream))
}

/// The sketch of the stream file that starts at an offset, and the offset after its end. Where parameters are
/// given, the file's must equal them.
fn stream(bytes: &[u8], start: usize, given: Option<&Params>) -> Result<(Sketch, usize), Refusal> {
    let (params, after_head) = records::head(bytes, start)?;
    if params.d * params.m > MOST_BUCKETS {
        return Err(Fault::Param.at(start));
    }
    if given.is_some_and(|given| *given != params) {
        return Err(Fault::Mismatch.at(start));
    }
    let mut sketch = Sketch::fresh(params);
    let after = records::insert_packets(bytes, after_head, &mut sketch)?;
    Ok((sketch, after))
}
