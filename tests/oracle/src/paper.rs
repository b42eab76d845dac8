// Document 01 read once more with document 02's [4], [5] and [8], in plain Rust, sharing no line with the proved code.
// Where they speak of a whole record, so does this: it keeps every sample and looks back at all of them. Only `fed`
// goes sample by sample, since a state that was handed in has no samples to look back at. What has two channels is a
// pair here, the roll's first.

/// A refusal number and what is returned with it.
pub type Refused = (u64, u64);

/// The same of two slices, and the channel: 1 the roll, 2 the acceleration, 0 none.
pub type RefusedOfTwo = (u64, u64, u64);

pub const LONGEST: u64 = 10_000_000;
pub const MOST_RECORDS: u64 = 100_000;
pub const ROWS: u64 = 64;
pub const SAMPLE: i32 = 1_000_000;

// "Numbers a job may carry", items 1 to 5; item 3 is 3 and 6 by [8]
const RANGES: [(u64, u64); 6] = [(1, 10_000), (0, 1_000_000), (1, 1_000_000), (0, 10_000_000), (1, 100_000_000_000), (1, 1_000_000)];

/// What opens a record: items 1, 2, 3, 4, 6.
pub type Items = [u64; 5];
const OPENING: [usize; 5] = [1, 2, 3, 4, 6];

pub fn levels(items: Items) -> [u64; 2] {
    [items[2], items[4]]
}

fn item_ok(item: usize, value: u64) -> bool {
    let (low, high) = RANGES[item - 1];
    low <= value && value <= high
}

fn sample_ok(x: i32) -> bool {
    -SAMPLE <= x && x <= SAMPLE
}

/// Each channel's sample above its own level or not.
pub fn each_above(levels: [u64; 2], now: [i32; 2]) -> [bool; 2] {
    [u64::from(now[0].unsigned_abs()) > levels[0], u64::from(now[1].unsigned_abs()) > levels[1]]
}

/// [8]: "roll above its level or acceleration above its own".
fn above(levels: [u64; 2], now: [i32; 2]) -> bool {
    let [roll, acceleration] = each_above(levels, now);
    roll || acceleration
}

/// Refusal 3's bound on n.
pub fn most_samples(step: u64, ramp: u64) -> u64 {
    ramp + 1 + LONGEST / step
}

// ---- "Reading a record", over all its samples

/// At the places that both slices have.
pub fn crossings([roll, acceleration]: [&[i32]; 2], ramp: u64, levels: [u64; 2]) -> Vec<usize> {
    let mut places = Vec::new();
    let above = |i: usize| above(levels, [roll[i], acceleration[i]]);
    for i in 1..roll.len().min(acceleration.len()) {
        if (i - 1) as u64 >= ramp && !above(i - 1) && above(i) {
            places.push(i);
        }
    }
    places
}

/// Document 02, [5], as document 000, section 6.3, arranges it: the crossings group by group, each less than the time
/// after the one before it in its group.
pub fn groups(places: &[usize], step: u64, ramp: u64, decorrelation: u64) -> Vec<Vec<usize>> {
    let time = |i: usize| (i as u64 - ramp) * step;
    let mut groups: Vec<Vec<usize>> = Vec::new();
    for &i in places {
        match groups.last_mut() {
            Some(group) if time(i) - time(group[group.len() - 1]) < decorrelation => group.push(i),
            _ => groups.push(vec![i]),
        }
    }
    groups
}

/// The walk of document 01, whose number is the largest set.
pub fn apart(places: &[usize], step: u64, ramp: u64, decorrelation: u64) -> Vec<usize> {
    let time = |i: usize| (i as u64 - ramp) * step;
    let mut kept: Vec<usize> = Vec::new();
    for &i in places {
        match kept.last() {
            Some(&j) if time(i) - time(j) < decorrelation => {}
            _ => kept.push(i),
        }
    }
    kept
}

/// The most crossings that are pairwise apart, by trying every choice; for short lists only.
pub fn largest(times: &[u64], decorrelation: u64) -> usize {
    let mut best = 0;
    for choice in 0u32..1 << times.len() {
        let chosen: Vec<u64> = (0..times.len()).filter(|&k| choice >> k & 1 == 1).map(|k| times[k]).collect();
        if chosen.windows(2).all(|w| w[1] - w[0] >= decorrelation) {
            best = best.max(chosen.len());
        }
    }
    best
}

// ---- a record's state

#[derive(Clone, Debug, PartialEq)]
pub struct Record {
    pub items: Items,
    pub n: u64,
    pub last: [i32; 2],
    pub crossings: u64,
    pub largest: u64,
    pub first: u64,
    pub last_chosen: u64,
    pub last_crossing: u64,
    pub groups: u64,
}

pub fn open(items: Items) -> Result<Record, Refused> {
    for (k, item) in OPENING.into_iter().enumerate() {
        if !item_ok(item, items[k]) {
            return Err((1, item as u64));
        }
    }
    Ok(Record { items, n: 0, last: [0, 0], crossings: 0, largest: 0, first: 0, last_chosen: 0, last_crossing: 0, groups: 0 })
}

/// The state of two whole lists of samples, figure by figure.
pub fn state_of(items: Items, samples: [&[i32]; 2]) -> Record {
    let [step, ramp, _, decorrelation, _] = items;
    let places = crossings(samples, ramp, levels(items));
    let kept = apart(&places, step, ramp, decorrelation);
    Record {
        items,
        n: samples[0].len() as u64,
        last: samples.map(|channel| channel.last().copied().unwrap_or(0)),
        crossings: places.len() as u64,
        largest: kept.len() as u64,
        first: places.first().map_or(0, |&i| i as u64),
        last_chosen: kept.last().map_or(0, |&i| i as u64),
        last_crossing: places.last().map_or(0, |&i| i as u64),
        groups: groups(&places, step, ramp, decorrelation).len() as u64,
    }
}

/// "Relations for 8", the record's, and document 02's [5] in addition; by [8] of both levels and both last samples.
pub fn record_ok(r: &Record) -> bool {
    let [step, ramp, ..] = r.items;
    if open(r.items).is_err() || r.last.iter().any(|&x| !sample_ok(x)) || r.n > most_samples(step, ramp) || r.largest > r.crossings {
        return false;
    }
    if r.n == 0 && r.last != [0, 0] {
        return false;
    }
    if r.first == 0 {
        return r.crossings == 0 && r.largest == 0 && r.last_chosen == 0 && r.last_crossing == 0 && r.groups == 0;
    }
    if r.crossings == 0 || r.largest == 0 {
        return false;
    }
    if r.last_crossing >= r.n || r.last_crossing < r.last_chosen || r.groups < 1 || r.groups > r.largest {
        return false;
    }
    r.n > ramp && r.crossings <= r.n - 1 - ramp && r.first > ramp && r.first <= r.last_chosen && r.last_chosen < r.n
}

fn one_more(r: &Record, now: [i32; 2]) -> Record {
    let [step, ramp, _, decorrelation, _] = r.items;
    let mut s = r.clone();
    let timed_before = r.n > ramp;
    if timed_before && !above(levels(r.items), r.last) && above(levels(r.items), now) {
        s.crossings += 1;
        if r.crossings == 0 {
            s.first = r.n;
        }
        if r.crossings == 0 || (r.n - r.last_chosen) * step >= decorrelation {
            s.largest += 1;
            s.last_chosen = r.n;
        }
        let joins = r.crossings > 0 && (r.n - r.last_crossing) * step < decorrelation;
        s.groups += u64::from(!joins);
        s.last_crossing = r.n;
    }
    s.n += 1;
    s.last = now;
    s
}

/// [8]: 12 for unequal lengths, before 2 with the lower place and its channel, "roll first on a tie".
fn both_taken([roll, acceleration]: [&[i32]; 2]) -> Result<(), RefusedOfTwo> {
    if roll.len() != acceleration.len() {
        return Err((12, 0, 0));
    }
    let bad = |channel: &[i32]| channel.iter().position(|&x| !sample_ok(x)).map(|place| place as u64);
    match (bad(roll), bad(acceleration)) {
        (None, None) => Ok(()),
        (Some(i), None) => Err((2, i, 1)),
        (None, Some(j)) => Err((2, j, 2)),
        (Some(i), Some(j)) => Err(if j < i { (2, j, 2) } else { (2, i, 1) }),
    }
}

pub fn fed(r: &Record, piece: [&[i32]; 2]) -> Result<Record, RefusedOfTwo> {
    if !record_ok(r) {
        return Err((8, 0, 0));
    }
    both_taken(piece)?;
    let [roll, acceleration] = piece;
    if r.n + roll.len() as u64 > most_samples(r.items[0], r.items[1]) {
        return Err((3, 0, 0));
    }
    Ok(roll.iter().zip(acceleration).fold(r.clone(), |s, (&x, &y)| one_more(&s, [x, y])))
}

/// The counted times, for a slice of so many places.
pub fn listed(items: Items, samples: [&[i32]; 2], places: usize) -> Result<Vec<u32>, RefusedOfTwo> {
    open(items).map_err(|(number, carried)| (number, carried, 0))?;
    let [step, ramp, _, decorrelation, _] = items;
    both_taken(samples)?;
    let n = samples[0].len() as u64;
    if n > most_samples(step, ramp) {
        return Err((3, 0, 0));
    }
    if n < ramp + 2 {
        return Err((4, 0, 0));
    }
    let groups = groups(&crossings(samples, ramp, levels(items)), step, ramp, decorrelation);
    if groups.len() > places {
        return Err((7, groups.len() as u64, 0));
    }
    Ok(groups.iter().map(|group| ((group[0] as u64 - ramp) * step) as u32).collect())
}

// ---- the campaign

#[derive(Clone, Debug, PartialEq)]
pub struct Campaign {
    pub standard: u64,
    pub records: u64,
    pub failures: u64,
    pub exposure: u64,
    pub failed: bool,
}

pub struct Rows {
    pub upper: Vec<u64>,
    pub lower: Vec<u64>,
}

#[derive(Debug, PartialEq)]
pub enum Verdict {
    NoRecord,
    Accept,
    Reject,
    Continue,
}

pub fn open_campaign(standard: u64) -> Result<Campaign, Refused> {
    if !item_ok(5, standard) {
        return Err((1, 5));
    }
    Ok(Campaign { standard, records: 0, failures: 0, exposure: 0, failed: false })
}

/// "Relations for 8", the campaign's.
pub fn campaign_ok(c: &Campaign) -> bool {
    let (m, n, t) = (c.records, c.failures, c.exposure);
    item_ok(5, c.standard)
        && m <= MOST_RECORDS
        && n <= ROWS
        && n <= m
        && m <= t
        && t <= m * LONGEST
        && !(c.failed && n == 0)
        && !(!c.failed && m >= 1 && n >= m)
        && !(m == 0 && c.failed)
        && !(n == ROWS && !c.failed)
}

/// Document 02, [4], the first step: crossings, count, first failure and exposure; by [5] the groups are the count, and
/// the largest set stands beside it.
pub fn ended(r: &Record) -> Result<[u64; 5], Refused> {
    if !record_ok(r) {
        return Err((8, 0));
    }
    let [step, ramp, ..] = r.items;
    if r.n < ramp + 2 {
        return Err((4, 0));
    }
    let last = if r.first == 0 { r.n - 1 } else { r.first };
    Ok([r.crossings, r.groups, r.first, (last - ramp) * step, r.largest])
}

/// The second step, which reads only whether there is a first failure and the exposure: 8 for the campaign or the
/// result, 5, 6.
pub fn entered(c: &Campaign, failed: bool, exposure: u64) -> Result<Campaign, Refused> {
    if !campaign_ok(c) || !(1..=LONGEST).contains(&exposure) {
        return Err((8, 0));
    }
    if c.records == MOST_RECORDS {
        return Err((5, 0));
    }
    if c.failures == ROWS {
        return Err((6, 0));
    }
    Ok(Campaign {
        standard: c.standard,
        records: c.records + 1,
        failures: c.failures + u64::from(failed),
        exposure: c.exposure + exposure,
        failed,
    })
}

/// N*: N before the last record, plus 1.
pub fn censored(c: &Campaign) -> u64 {
    if c.records == 0 {
        0
    } else if c.failed {
        c.failures - 1 + 1
    } else {
        c.failures + 1
    }
}

impl Rows {
    /// From the lines that the program `run_rows` writes and R checks.
    pub fn read(text: &str) -> Rows {
        let mut rows = Rows { upper: vec![0], lower: vec![0] };
        for line in text.lines() {
            let fields: Vec<&str> = line.split('\t').collect();
            let column = if fields[0] == "upper" { &mut rows.upper } else { &mut rows.lower };
            assert_eq!(fields[1].parse::<usize>().unwrap(), column.len());
            column.push(fields[2].parse().unwrap());
        }
        assert_eq!((rows.upper.len(), rows.lower.len()), (65, 65));
        rows
    }

    pub fn verdict(&self, c: &Campaign) -> Verdict {
        if c.records == 0 {
            return Verdict::NoRecord;
        }
        let exposed = u128::from(c.exposure) * 1_000_000;
        let line = |row: u64| u128::from(row) * u128::from(c.standard);
        if exposed < line(self.lower[c.failures as usize]) {
            Verdict::Reject
        } else if exposed > line(self.upper[censored(c) as usize]) {
            Verdict::Accept
        } else {
            Verdict::Continue
        }
    }

    /// Estimate, lower, upper; zeros without a record.
    pub fn rates(&self, c: &Campaign) -> [f64; 3] {
        if c.records == 0 {
            return [0.0; 3];
        }
        let t = c.exposure;
        let over = |n: u64, d: u64| n as f64 / d as f64;
        [
            over(c.failures * 1_000, t),
            over(self.lower[c.failures as usize], t * 1_000),
            over(self.upper[censored(c) as usize], t * 1_000),
        ]
    }
}
