//! The sketch: its parameters and their rules, what is sketched for a flow and where it stands, insertion, addition, subtraction and the
//! fold with their refusals.

/// The prime 2^31 - 1.
pub const P: i64 = 2147483647;

/// Counts stand between -MOST and MOST.
pub const MOST: i64 = P - 1;

/// The last flow where flows have fingerprints, and how many fingerprints there are.
const LAST_WITH_FINGERPRINT: i64 = 8388606;
const FINGERPRINTS: i64 = 256;

/// The numbers of the refusals.
#[derive(Clone, Copy)]
pub enum Fault {
    Param = 1,
    Length = 2,
    Flow = 3,
    Count = 4,
    Damage = 5,
    Range = 6,
    Mismatch = 7,
    Form = 8,
    Fold = 9,
}

/// Why a call or an input is refused, and the index or the offset that goes with it.
pub struct Refusal {
    pub fault: Fault,
    pub at: usize,
}

impl Fault {
    /// The refusal with index 0, as it is for most.
    pub fn refused(self) -> Refusal {
        self.at(0)
    }

    pub fn at(self, at: usize) -> Refusal {
        Refusal { fault: self, at }
    }
}

#[derive(Clone, Copy, PartialEq)]
pub struct Params {
    pub d: i64,
    pub m: i64,
    /// There is always room for four; pair i of the scope is `pairs[i - 1]`.
    pub pairs: [(i64, i64); 4],
    /// The number of the prime: 1, until there is a second one.
    pub prime: i64,
    /// The pair of the fingerprints; (0, 0) in the plain profile, which has none.
    pub fifth: (i64, i64),
    /// Always 0: kept for a later request.
    pub sort: i64,
}

impl Params {
    pub fn keep_the_rules(&self) -> bool {
        if !(2..=4).contains(&self.d) || !(1..=16384).contains(&self.m) || self.prime != 1 || self.sort != 0 {
            return false;
        }
        let in_limits = |&(a, b): &(i64, i64)| 1 <= a && a < P && 0 <= b && b < P;
        let (used, past) = self.pairs.split_at(self.d as usize);
        let no_two_equal = (0..used.len()).all(|i| !used[..i].contains(&used[i]));
        used.iter().all(in_limits)
            && no_two_equal
            && past.iter().all(|&pair| pair == (0, 0))
            && (!self.has_fingerprints() || in_limits(&self.fifth))
    }

    /// Whether these are of the profile with fingerprints.
    pub fn has_fingerprints(&self) -> bool {
        self.fifth != (0, 0)
    }

    fn fingerprint(&self, flow: i64) -> i64 {
        let (a, b) = self.fifth;
        (a * flow + b) % P % FINGERPRINTS
    }

    /// What is sketched for a flow: the flow, or its extended number.
    pub fn sketched(&self, flow: i64) -> i64 {
        if self.has_fingerprints() { flow * FINGERPRINTS + self.fingerprint(flow) } else { flow }
    }

    /// The flow for which a number is sketched; None where it is not sketched for any.
    pub fn flow_of(&self, sketched: i64) -> Option<i64> {
        let flow = if self.has_fingerprints() { sketched / FINGERPRINTS } else { sketched };
        (self.judge_flow(flow).is_ok() && self.sketched(flow) == sketched).then_some(flow)
    }

    /// Flow 0 is nobody's. With fingerprints there are fewer flows.
    pub fn judge_flow(&self, flow: i64) -> Result<(), Refusal> {
        let last = if self.has_fingerprints() { LAST_WITH_FINGERPRINT } else { P - 1 };
        if flow == 0 || flow > last {
            return Err(Fault::Flow.refused());
        }
        Ok(())
    }

    /// Where a sketched number stands in an array, from 0; arrays count from 1.
    pub fn position(&self, array: i64, sketched: i64) -> i64 {
        let (a, b) = self.pairs[array as usize - 1];
        (a * sketched + b) % P % self.m
    }

    /// The index of a sketched number's bucket in an array.
    pub fn index(&self, array: i64, sketched: i64) -> i64 {
        (array - 1) * self.m + self.position(array, sketched)
    }

    /// The indexes of a sketched number's buckets, in rising array order.
    pub fn indexes(&self, sketched: i64) -> Vec<usize> {
        (1..=self.d).map(|array| self.index(array, sketched) as usize).collect()
    }
}

#[derive(Clone, Copy)]
pub struct Bucket {
    pub count: i64,
    pub idsum: i64,
}

impl Bucket {
    pub const ZERO: Bucket = Bucket { count: 0, idsum: 0 };

    pub fn is_all_zero(&self) -> bool {
        self.count == 0 && self.idsum == 0
    }

    pub fn is_damaged(&self) -> bool {
        leaves_the_limits(self.count) || !(0..P).contains(&self.idsum)
    }
}

pub fn leaves_the_limits(count: i64) -> bool {
    !(-MOST..=MOST).contains(&count)
}

pub struct Sketch {
    pub params: Params,
    pub buckets: Vec<Bucket>,
}

impl Sketch {
    pub fn fresh(params: Params) -> Sketch {
        let size = (params.d * params.m) as usize;
        Sketch { params, buckets: vec![Bucket::ZERO; size] }
    }

    /// DAMAGE at the lowest index where a bucket is outside its limits.
    pub fn judge_damage(&self) -> Result<(), Refusal> {
        match self.buckets.iter().position(Bucket::is_damaged) {
            Some(index) => Err(Fault::Damage.at(index)),
            None => Ok(()),
        }
    }

    pub fn insert(&mut self, flow: i64, number: i64) -> Result<(), Refusal> {
        self.put(1, flow, number)
    }

    /// Takes packets out again; judged as an insertion is, with the number taken away in place of added.
    pub fn withdraw(&mut self, flow: i64, number: i64) -> Result<(), Refusal> {
        self.put(-1, flow, number)
    }

    fn put(&mut self, sign: i64, flow: i64, number: i64) -> Result<(), Refusal> {
        self.params.judge_flow(flow)?;
        judge_number(number)?;
        let sketched = self.params.sketched(flow);
        // In rising array order, so the first of them that is at fault has the lowest index.
        let indexes = self.params.indexes(sketched);
        if let Some(&index) = indexes.iter().find(|&&index| self.buckets[index].is_damaged()) {
            return Err(Fault::Damage.at(index));
        }
        if let Some(&index) = indexes.iter().find(|&&index| leaves_the_limits(self.buckets[index].count + sign * number)) {
            return Err(Fault::Range.at(index));
        }
        for index in indexes {
            let bucket = &mut self.buckets[index];
            bucket.count += sign * number;
            bucket.idsum = (bucket.idsum + sign * (number * sketched % P)).rem_euclid(P);
        }
        Ok(())
    }

    /// Adds `sign` times another sketch of the same parameters, bucket by bucket.
    pub fn combine(&mut self, sign: i64, other: &Sketch) -> Result<(), Refusal> {
        let both = || self.buckets.iter().zip(&other.buckets);
        if let Some(index) = both().position(|(bucket, added)| bucket.is_damaged() || added.is_damaged()) {
            return Err(Fault::Damage.at(index));
        }
        if let Some(index) = both().position(|(bucket, added)| leaves_the_limits(bucket.count + sign * added.count)) {
            return Err(Fault::Range.at(index));
        }
        for (bucket, added) in self.buckets.iter_mut().zip(&other.buckets) {
            bucket.count += sign * added.count;
            bucket.idsum = (bucket.idsum + sign * added.idsum).rem_euclid(P);
        }
        Ok(())
    }

    /// The sketch with m2 buckets an array: bucket j of each array is added into bucket j mod m2 of the same array.
    pub fn fold(&self, m2: i64) -> Result<Sketch, Refusal> {
        let Params { d, m, .. } = self.params;
        if m2 == 0 || m % m2 != 0 {
            return Err(Fault::Fold.refused());
        }
        self.judge_damage()?;
        let mut folded = Sketch::fresh(Params { m: m2, ..self.params });
        for array in 1..=d {
            for j in 0..m {
                let bucket = self.buckets[((array - 1) * m + j) as usize];
                let target = &mut folded.buckets[((array - 1) * m2 + j % m2) as usize];
                target.count += bucket.count;
                target.idsum = (target.idsum + bucket.idsum) % P;
            }
        }
        // Only whole sums count: one may leave the limits on the way and come back.
        match folded.buckets.iter().position(|target| leaves_the_limits(target.count)) {
            Some(index) => Err(Fault::Range.at(index)),
            None => Ok(folded),
        }
    }
}

pub fn judge_number(number: i64) -> Result<(), Refusal> {
    if number == 0 || number > P - 1 {
        return Err(Fault::Count.refused());
    }
    Ok(())
}
