//! Failures in ship-stability campaigns, counted by a proved library.
//!
//! A [`Record`] is roll and acceleration watched together, fed whole or in pieces; what it comes to is [`Ended`], seen before it enters
//! a [`Campaign`], which gives the [`Verdict`]. A job of one channel lends zeros for the other. Rolls and
//! their level are in thousandths of a degree, accelerations and theirs in mm/s², times in ms, rates in failures a second. Campaigns, one for each design situation, make
//! a loading condition ([`judge_condition`], `write_report`). Records that go on past a failure are added up in a [`Sum`]. What the library cannot take it refuses by a [`Refusal`], and then nothing has
//! changed.
//!
//! ```
//! use chimenickel::{Campaign, Items, Record, Verdict};
//!
//! # fn main() -> Result<(), chimenickel::Refusal> {
//! let mut record = Record::open(Items { step: 500, ramp: 0, level: 40_000, decorrelation: 2_000, acceleration_level: 9_810 })?;
//! record.feed(&[0, 41_000, 39_000], &[0, 0, 0])?;
//! record.feed(&[41_000, 39_000, 0, 0], &[0, 0, -9_811, 0])?;
//! assert_eq!((record.crossings(), record.counted(), record.largest_set(), record.first()), (3, 1, 2, Some(1)));
//!
//! let mut campaign = Campaign::open(7_200_000)?;
//! let ended = record.end()?;
//! assert_eq!((ended.counted, ended.largest_set, ended.exposure), (1, 2, 500));
//! campaign.enter_result(&ended)?;
//! assert!(matches!(campaign.verdict()?, Verdict::Reject { .. }));
//! # Ok(())
//! # }
//! ```
//!
//! What hands out a list or a text needs memory of its own, and stands behind the feature `std`, which is on unless it is turned off;
//! without it the crate is `no_std` and touches nothing but what it is lent.
//!
//! # Worked cases
//!
//! A simulator's file is counted: two groups of six crossings, the first failure 7 s after the ramp.
//!
//! ```
//! # #[cfg(feature = "std")] {
//! use chimenickel::{read_comma, Items, Record};
//!
//! let items = Items { step: 500, ramp: 20, level: 40_000, decorrelation: 20_000, acceleration_level: 9_810 };
//! let roll = read_comma(&std::fs::read("../../examples/roll.csv").unwrap(), 500).unwrap();
//! let mut record = Record::open(items).unwrap();
//! record.feed_roll(&roll).unwrap();
//! let ended = record.end().unwrap();
//! assert_eq!((record.samples(), ended.crossings, ended.counted, ended.largest_set), (241, 6, 2, 2));
//! assert_eq!((ended.first, ended.exposure), (Some(20 + 7_000 / 500), 7_000));
//!
//! // with the acceleration, which adds a crossing of its own
//! let acceleration = read_comma(&std::fs::read("../../examples/acceleration.csv").unwrap(), 500).unwrap();
//! let mut both = Record::open(items).unwrap();
//! both.feed(&roll, &acceleration).unwrap();
//! assert_eq!((both.crossings(), both.counted(), both.largest_set()), (7, 3, 3));
//! # }
//! ```
//!
//! Roll and acceleration are watched together: where the roll was above, the acceleration's is no crossing.
//!
//! ```
//! # fn main() -> Result<(), chimenickel::Refusal> {
//! use chimenickel::{Items, Record};
//!
//! let mut record = Record::open(Items { step: 500, ramp: 0, level: 40_000, decorrelation: 2_000, acceleration_level: 9_810 })?;
//! record.feed(&[0, 41_000, 0, 0, 0, 0, 0], &[0, 0, 9_900, 0, 0, 0, -9_900])?;
//! assert_eq!((record.end()?.crossings, record.end()?.counted), (2, 2));
//! # Ok(())
//! # }
//! ```
//!
//! The envelope peaks of a hull that never reaches the level, and their tail:
//!
//! ```
//! # #[cfg(feature = "std")] {
//! use chimenickel::{envelope_peaks, read_comma, Tail};
//!
//! let swell = read_comma(&std::fs::read("../../examples/swell.csv").unwrap(), 500).unwrap();
//! let peaks = envelope_peaks(500, 20, 35_000, &swell).unwrap();
//! let sizes: Vec<u32> = peaks.iter().map(|peak| peak.size).collect();
//! assert_eq!((sizes.as_slice(), peaks[0].time), ([26_468, 23_183, 23_189, 24_942].as_slice(), 89_000));
//! let tail = Tail::fit(&sizes, 3).unwrap();
//! assert_eq!((tail.sum, (tail.shape() * 10_000.0).round()), (19_394, 684.0));
//! # }
//! ```
//!
//! Long records to their end, by the binomial method:
//!
//! ```
//! # #[cfg(feature = "std")] {
//! use chimenickel::{read_comma, Items, Record, Sum};
//!
//! let mut sum = Sum::open(500).unwrap();
//! for name in ["roll", "swell"] {
//!     let samples = read_comma(&std::fs::read(format!("../../examples/{name}.csv")).unwrap(), 500).unwrap();
//!     let items = Items { step: 500, ramp: 20, level: 40_000, decorrelation: 20_000, acceleration_level: 9_810 };
//!     let mut record = Record::open(items).unwrap();
//!     record.feed_roll(&samples).unwrap();
//!     sum.add(&record).unwrap();
//! }
//! let bounds = sum.bounds().unwrap().unwrap();
//! assert_eq!((sum.failures(), sum.samples()), (2, 802));
//! assert_eq!((bounds.estimate, bounds.lower, bounds.upper, bounds.time), (2_000, 0, 4_769, 401_000));
//! # }
//! ```
//!
//! A record that is rejected, and a loading condition of two campaigns:
//!
//! ```
//! # fn main() -> Result<(), chimenickel::BadLine> {
//! use chimenickel::{judge_condition, Campaign, Standing, Verdict};
//!
//! let rejected = Campaign::read_sheet(b"standard\t7200000\n1\t1\t7000\n")?;
//! assert!(matches!(rejected.verdict(), Ok(Verdict::Reject { .. })));
//! let first = Campaign::read_sheet(b"standard\t7200000\n1\t0\t1800000\n2\t1\t933980\n")?;
//! assert_eq!(judge_condition(&[first, Campaign::open(7_200_000).unwrap()]), Ok(Standing::Open));
//! # Ok(())
//! # }
//! ```
#![no_std]

#[cfg(feature = "std")]
extern crate std;

#[cfg(feature = "std")]
mod beyond;
#[allow(dead_code)] // without std some are not asked
mod c;
mod pieces;

#[cfg(feature = "std")]
pub use beyond::{extrapolate, Beyond, Letter};
pub use pieces::{PeakPass, PeakSurvey};

use core::fmt;
#[cfg(feature = "std")]
use std::{cell::Cell, string::String, thread_local, vec, vec::Vec};

/// Why nothing was done, by the counter's refusal numbers.
#[derive(Clone, Copy, Debug, PartialEq, Eq)]
pub enum Refusal {
    /// 1: an opening item is outside its range; the lowest such item, from 1 to 6. With item 1 too: a record's step is not the sum's.
    Item(u64),
    /// 2: a sample is outside -1,000,000 to 1,000,000; its place in the piece or file. Of a record it is the roll.
    Sample(u64),
    /// 2 too: an acceleration is; a roll at its place or at a lower one goes before it.
    Acceleration(u64),
    /// 3: the timed length of the record, or a sheet's exposure, would pass 10,000,000 ms; a comma file's last time would need more than 12 digits.
    TooLong,
    /// 4: fewer than two timed samples, or a sheet's exposure of 0.
    TooShort,
    /// 5: the campaign has 100,000 records.
    CampaignFull,
    /// 6: the campaign has 64 failures.
    RowsUsedUp,
    /// 7: the lent slice is too short; the places needed.
    Room(u64),
    /// 8: the numbers are no state, or a result's exposure is not from 1 to 10,000,000 ms.
    BrokenState,
    /// 8 too: a campaign of a loading condition is no state; its situation's number, the lowest, from 1.
    BrokenSituation(u64),
    /// 9: a line of a job sheet is malformed; its number.
    Line(u64),
    /// 10: a line of a comma file is malformed or has a wrong time; its number.
    CommaLine(u64),
    /// 11: the sum would have more than 10,000 failures or 100,000,000 samples.
    SumFull,
    /// 12: roll and acceleration have unequal lengths.
    Unequal,
    /// 13: a bureau other than 1 or 2.
    NoBureau,
    /// 14: the bureau has 16 jobs.
    BureauFull,
    /// 15: a place that is not in the table, or not the bureau's own.
    NotItsOwn,
    /// 16: more than 4,096 peaks, or a k outside 2 to their number.
    Tail,
    /// 17: a peak is 0 or above 1,000,000; its place in the list.
    Peak(u64),
    /// 18: a loading condition of no campaign, or of more than 64.
    Condition,
    /// 19: fewer timed samples than peaks in the tail, or more than 100,000,000.
    TimedSamples,
    /// 20: a level below the last peak of the tail; that peak.
    LowLevel(u64),
    /// 21: a tail without spread.
    NoSpread,
}

impl Refusal {
    /// The refusal's number.
    pub fn number(self) -> u64 {
        match self {
            Refusal::Item(_) => 1,
            Refusal::Sample(_) | Refusal::Acceleration(_) => 2,
            Refusal::TooLong => 3,
            Refusal::TooShort => 4,
            Refusal::CampaignFull => 5,
            Refusal::RowsUsedUp => 6,
            Refusal::Room(_) => 7,
            Refusal::BrokenState | Refusal::BrokenSituation(_) => 8,
            Refusal::Line(_) => 9,
            Refusal::CommaLine(_) => 10,
            Refusal::SumFull => 11,
            Refusal::Unequal => 12,
            Refusal::NoBureau => 13,
            Refusal::BureauFull => 14,
            Refusal::NotItsOwn => 15,
            Refusal::Tail => 16,
            Refusal::Peak(_) => 17,
            Refusal::Condition => 18,
            Refusal::TimedSamples => 19,
            Refusal::LowLevel(_) => 20,
            Refusal::NoSpread => 21,
        }
    }

    fn from(number: u64, carried: u64) -> Refusal {
        match number {
            1 => Refusal::Item(carried),
            2 => Refusal::Sample(carried),
            3 => Refusal::TooLong,
            4 => Refusal::TooShort,
            5 => Refusal::CampaignFull,
            6 => Refusal::RowsUsedUp,
            7 => Refusal::Room(carried),
            8 if carried != 0 => Refusal::BrokenSituation(carried),
            9 => Refusal::Line(carried),
            10 => Refusal::CommaLine(carried),
            11 => Refusal::SumFull,
            12 => Refusal::Unequal,
            13 => Refusal::NoBureau,
            14 => Refusal::BureauFull,
            15 => Refusal::NotItsOwn,
            16 => Refusal::Tail,
            17 => Refusal::Peak(carried),
            18 => Refusal::Condition,
            19 => Refusal::TimedSamples,
            20 => Refusal::LowLevel(carried),
            21 => Refusal::NoSpread,
            _ => Refusal::BrokenState,
        }
    }
}

impl fmt::Display for Refusal {
    fn fmt(&self, f: &mut fmt::Formatter<'_>) -> fmt::Result {
        match self {
            Refusal::Item(item) => write!(f, "opening item {item} is outside its range"),
            Refusal::Sample(place) => write!(f, "the sample at place {place} is outside its range"),
            Refusal::Acceleration(place) => write!(f, "the acceleration at place {place} is outside its range"),
            Refusal::TooLong => write!(
                f,
                "the timed length, or a sheet's exposure, would pass 10,000,000 ms, or a comma file's last time 12 digits"
            ),
            Refusal::TooShort => write!(f, "there are fewer than two timed samples, or a sheet's exposure is 0"),
            Refusal::CampaignFull => write!(f, "the campaign has 100,000 records"),
            Refusal::RowsUsedUp => write!(f, "the campaign has 64 failures"),
            Refusal::Room(places) => write!(f, "{places} places are needed"),
            Refusal::BrokenState => write!(f, "the numbers are no state, or no result"),
            Refusal::BrokenSituation(situation) => write!(f, "the numbers of situation {situation} are no campaign"),
            Refusal::Line(line) => write!(f, "line {line} of the sheet is malformed"),
            Refusal::CommaLine(line) => write!(f, "line {line} of the comma file is malformed or has a wrong time"),
            Refusal::SumFull => write!(f, "the sum would have more than 10,000 failures or 100,000,000 samples"),
            Refusal::Unequal => write!(f, "roll and acceleration have unequal lengths"),
            Refusal::NoBureau => write!(f, "there is no such bureau"),
            Refusal::BureauFull => write!(f, "the bureau has 16 jobs"),
            Refusal::NotItsOwn => write!(f, "the place is not the bureau's own"),
            Refusal::Tail => write!(f, "there are more than 4,096 peaks, or k is outside 2 to their number"),
            Refusal::Peak(place) => write!(f, "the peak at place {place} is 0 or above 1,000,000"),
            Refusal::Condition => write!(f, "there is no campaign, or there are more than 64"),
            Refusal::TimedSamples => {
                write!(f, "there are fewer timed samples than peaks in the tail, or more than 100,000,000")
            }
            Refusal::LowLevel(peak) => write!(f, "the level is below {peak}, the last peak of the tail"),
            Refusal::NoSpread => write!(f, "the tail has no spread"),
        }
    }
}

#[cfg(feature = "std")]
impl std::error::Error for Refusal {}

/// The version of the library that is linked, as `CHIM_VERSION` of its header has it: 3,001,002 for 3.1.2.
pub fn version() -> u64 {
    unsafe { c::chim_version() }
}

/// What a call answers: the number that it carries, or the refusal.
fn answer(call: impl FnOnce(*mut u64) -> u64) -> Result<u64, Refusal> {
    let mut carried = 0;
    match call(&mut carried) {
        0 => Ok(carried),
        number => Err(Refusal::from(number, carried)),
    }
}

/// The same of a call about two channels, of which refusal 2 names one.
fn answer_of_two(call: impl FnOnce(*mut u64, *mut u64) -> u64) -> Result<u64, Refusal> {
    let mut channel = 0;
    answer(|carried| call(carried, &mut channel)).map_err(|refusal| match refusal {
        Refusal::Sample(place) if channel == 2 => Refusal::Acceleration(place),
        other => other,
    })
}

#[cfg(feature = "std")]
thread_local! {
    static ZEROS: Cell<Vec<i32>> = const { Cell::new(Vec::new()) };
}

/// What `call` gives for `n` zeros, which a job of one channel lends for the other. They are kept for the next call.
///
/// ```
/// use chimenickel::{list, with_zeros, Items};
///
/// let items = Items { step: 500, ramp: 0, level: 40_000, decorrelation: 0, acceleration_level: 9_810 };
/// let roll = [0, 41_000, 39_000, -41_000];
/// assert_eq!(with_zeros(roll.len(), |zeros| list(items, &roll, zeros)), Ok(vec![500, 1_500]));
/// ```
#[cfg(feature = "std")]
pub fn with_zeros<T>(n: usize, call: impl FnOnce(&[i32]) -> T) -> T {
    ZEROS.with(|kept| {
        let mut zeros = kept.take();
        if zeros.len() < n {
            zeros = vec![0; n];
        }
        let given = call(&zeros[..n]);
        kept.set(zeros);
        given
    })
}

/// What a record is opened with.
#[derive(Clone, Copy, Debug, PartialEq, Eq)]
pub struct Items {
    /// Item 1, the step between samples in ms: 1 to 10,000.
    pub step: u64,
    /// Item 2, the samples before time starts: 0 to 1,000,000.
    pub ramp: u64,
    /// Item 3, the roll's level: 1 to 1,000,000.
    pub level: u64,
    /// Item 4, in ms: 0 to 10,000,000.
    pub decorrelation: u64,
    /// Item 6, the acceleration's level: 1 to 1,000,000.
    pub acceleration_level: u64,
}

/// Roll and acceleration, so far. It is above where the roll is above its level or the acceleration above its own; a crossing is a sample above after one that was
/// above in neither.
#[derive(Clone, Debug, PartialEq, Eq)]
pub struct Record {
    numbers: [u64; 14],
}

impl Record {
    /// A record without samples.
    pub fn open(items: Items) -> Result<Record, Refusal> {
        let mut s = [0; 14];
        answer(|carried| unsafe {
            c::chim_record_open(
                items.step,
                items.ramp,
                items.level,
                items.decorrelation,
                items.acceleration_level,
                s.as_mut_ptr(),
                s.len(),
                carried,
            )
        })?;
        Ok(Record { numbers: s })
    }

    /// The next piece of both channels, cut at the same place. Cut anywhere, the pieces of a record lead to the state of the whole.
    pub fn feed(&mut self, roll: &[i32], acceleration: &[i32]) -> Result<(), Refusal> {
        let s = &mut self.numbers;
        answer_of_two(|carried, channel| unsafe {
            c::chim_record_feed(
                s.as_mut_ptr(),
                s.len(),
                roll.as_ptr(),
                roll.len(),
                acceleration.as_ptr(),
                acceleration.len(),
                carried,
                channel,
            )
        })?;
        Ok(())
    }

    /// The next piece of a job that has only the roll.
    #[cfg(feature = "std")]
    pub fn feed_roll(&mut self, roll: &[i32]) -> Result<(), Refusal> {
        with_zeros(roll.len(), |zeros| self.feed(roll, zeros))
    }

    /// The next piece of a job that has only the acceleration.
    #[cfg(feature = "std")]
    pub fn feed_acceleration(&mut self, acceleration: &[i32]) -> Result<(), Refusal> {
        with_zeros(acceleration.len(), |zeros| self.feed(zeros, acceleration))
    }

    /// The record's result, to be seen before it enters a campaign.
    pub fn end(&self) -> Result<Ended, Refusal> {
        let (s, mut x) = (&self.numbers, [0; 5]);
        answer(|carried| unsafe { c::chim_record_end(s.as_ptr(), s.len(), x.as_mut_ptr(), x.len(), carried) })?;
        let [crossings, counted, first, exposure, largest_set] = x;
        Ok(Ended { crossings, counted, first: Some(first).filter(|&place| place != 0), exposure, largest_set })
    }

    /// The samples so far.
    pub fn samples(&self) -> u64 {
        self.numbers[4]
    }

    /// The crossings so far.
    pub fn crossings(&self) -> u64 {
        self.numbers[6]
    }

    /// The groups: runs of successive crossings, each less than the decorrelation time after the crossing just before it.
    pub fn counted(&self) -> u64 {
        self.numbers[11]
    }

    /// The largest number of crossings pairwise at least the decorrelation time apart.
    pub fn largest_set(&self) -> u64 {
        self.numbers[7]
    }

    /// The place of the first crossing, which is the first failure.
    pub fn first(&self) -> Option<u64> {
        Some(self.numbers[8]).filter(|&place| place != 0)
    }

    /// The state, to be stored: fourteen numbers, twelve while a record had one channel.
    pub fn numbers(&self) -> &[u64; 14] {
        &self.numbers
    }

    /// A stored state; numbers that are no state are refused at their first use.
    pub fn from_numbers(numbers: [u64; 14]) -> Record {
        Record { numbers }
    }
}

/// What a record comes to: its result.
#[derive(Clone, Copy, Debug, PartialEq, Eq)]
pub struct Ended {
    pub crossings: u64,
    /// The groups: runs of successive crossings, each less than the decorrelation time after the crossing just before it.
    pub counted: u64,
    /// The place of the first failure.
    pub first: Option<u64>,
    /// In ms: the time of the first failure, or else the full time.
    pub exposure: u64,
    /// The largest number of crossings pairwise at least the decorrelation time apart.
    pub largest_set: u64,
}

impl Ended {
    /// Whether there is a first failure: with the exposure all that a campaign takes of a result.
    pub fn failed(&self) -> bool {
        self.first.unwrap_or(0) != 0
    }
}

/// The place of the first crossing of a whole record; of slices of unequal lengths only the places that both have are looked at.
pub fn first_crossing(roll: &[i32], acceleration: &[i32], ramp: u64, level: u64, acceleration_level: u64) -> Option<usize> {
    let place = unsafe {
        c::chim_record_first_crossing(
            roll.as_ptr(),
            roll.len(),
            acceleration.as_ptr(),
            acceleration.len(),
            ramp,
            level,
            acceleration_level,
        )
    };
    Some(place).filter(|&place| place < roll.len().min(acceleration.len()))
}

/// Writes the counted times of a whole record, each group's by its first crossing, in order, from the start of `times`, whose other places stay, and answers their number.
pub fn list_into(items: Items, roll: &[i32], acceleration: &[i32], times: &mut [u32]) -> Result<usize, Refusal> {
    let k = answer_of_two(|carried, channel| unsafe {
        c::chim_record_list(
            items.step,
            items.ramp,
            items.level,
            items.decorrelation,
            items.acceleration_level,
            roll.as_ptr(),
            roll.len(),
            acceleration.as_ptr(),
            acceleration.len(),
            times.as_mut_ptr(),
            times.len(),
            carried,
            channel,
        )
    })?;
    Ok(k as usize)
}

/// The counted times of a whole record.
#[cfg(feature = "std")]
pub fn list(items: Items, roll: &[i32], acceleration: &[i32]) -> Result<Vec<u32>, Refusal> {
    let mut times = Vec::new();
    if let Err(Refusal::Room(places)) = list_into(items, roll, acceleration, &mut times) {
        times.resize(places as usize, 0);
    }
    let k = list_into(items, roll, acceleration, &mut times)?;
    times.truncate(k);
    Ok(times)
}

/// What a campaign's figures say of its standard. Rates are the 95% bounds in failures a second.
#[derive(Clone, Copy, Debug, PartialEq)]
pub enum Verdict {
    NoRecord,
    Accept { upper: f64 },
    Reject { lower: f64 },
    Continue { lower: f64, upper: f64 },
}

/// Failures a second: the estimate and its 95% bounds.
#[derive(Clone, Copy, Debug, PartialEq)]
pub struct Rates {
    pub estimate: f64,
    pub lower: f64,
    pub upper: f64,
}

/// A line of a job sheet that was refused.
#[derive(Clone, Copy, Debug, PartialEq, Eq)]
pub struct BadLine {
    /// Its number, 1 for the first.
    pub line: u64,
    /// Where a malformed line (refusal 9) is at fault, in bytes, 1 for the first; 0 where the line as a whole is, and for every other refusal.
    pub column: u64,
    pub refusal: Refusal,
}

impl fmt::Display for BadLine {
    fn fmt(&self, f: &mut fmt::Formatter<'_>) -> fmt::Result {
        match self.column {
            0 => write!(f, "line {}: {}", self.line, self.refusal),
            column => write!(f, "line {}, column {column}: {}", self.line, self.refusal),
        }
    }
}

#[cfg(feature = "std")]
impl std::error::Error for BadLine {}

impl Verdict {
    fn told(case: u64, lower: f64, upper: f64) -> Verdict {
        match case {
            1 => Verdict::Accept { upper },
            2 => Verdict::Reject { lower },
            3 => Verdict::Continue { lower, upper },
            _ => Verdict::NoRecord,
        }
    }
}

/// Many records.
#[derive(Clone, Debug, PartialEq, Eq)]
pub struct Campaign {
    numbers: [u64; 5],
}

impl Campaign {
    /// A campaign without a record, at the standard of one failure in so many ms: item 5, 1 to 100,000,000,000.
    pub fn open(standard: u64) -> Result<Campaign, Refusal> {
        let mut s = [0; 5];
        answer(|carried| unsafe { c::chim_campaign_open(standard, s.as_mut_ptr(), s.len(), carried) })?;
        Ok(Campaign { numbers: s })
    }

    /// The campaign of a whole job sheet; or its first bad line.
    pub fn read_sheet(text: &[u8]) -> Result<Campaign, BadLine> {
        let (mut s, mut line, mut column) = ([0; 5], 0, 0);
        let read = answer(|carried| unsafe { c::chim_sheet_read(text.as_ptr(), text.len(), s.as_mut_ptr(), s.len(), &mut line, &mut column, carried) });
        read.map(|_| Campaign { numbers: s }).map_err(|refusal| BadLine { line, column, refusal })
    }

    /// Enters a result by what a campaign takes of it: whether there is a first failure, and the exposure, 1 to 10,000,000 ms.
    pub fn enter(&mut self, failed: bool, exposure: u64) -> Result<(), Refusal> {
        let s = &mut self.numbers;
        answer(|carried| unsafe { c::chim_campaign_enter(s.as_mut_ptr(), s.len(), u64::from(failed), exposure, carried) })?;
        Ok(())
    }

    /// Enters a record's result, of which a campaign takes the first failure and the exposure.
    pub fn enter_result(&mut self, result: &Ended) -> Result<(), Refusal> {
        let s = &mut self.numbers;
        let x = [result.crossings, result.counted, result.first.unwrap_or(0), result.exposure, result.largest_set];
        answer(|carried| unsafe {
            c::chim_campaign_enter_result(s.as_mut_ptr(), s.len(), x.as_ptr(), x.len(), carried)
        })?;
        Ok(())
    }

    /// The records, M.
    pub fn records(&self) -> u64 {
        self.numbers[1]
    }

    /// The failures, N.
    pub fn failures(&self) -> u64 {
        self.numbers[2]
    }

    /// The exposure T in ms.
    pub fn exposure(&self) -> u64 {
        self.numbers[3]
    }

    /// The censored count N*.
    pub fn censored(&self) -> Result<u64, Refusal> {
        let s = &self.numbers;
        answer(|carried| unsafe { c::chim_campaign_censored(s.as_ptr(), s.len(), carried) })
    }

    pub fn verdict(&self) -> Result<Verdict, Refusal> {
        let s = &self.numbers;
        let (mut lower, mut upper) = (0.0, 0.0);
        let case = answer(|carried| unsafe { c::chim_campaign_verdict(s.as_ptr(), s.len(), &mut lower, &mut upper, carried) })?;
        Ok(Verdict::told(case, lower, upper))
    }

    /// The three rates; `None` while there is no record.
    pub fn rates(&self) -> Result<Option<Rates>, Refusal> {
        let s = &self.numbers;
        let (mut estimate, mut lower, mut upper) = (0.0, 0.0, 0.0);
        let some =
            answer(|carried| unsafe { c::chim_campaign_rates(s.as_ptr(), s.len(), &mut estimate, &mut lower, &mut upper, carried) })?;
        Ok((some == 1).then_some(Rates { estimate, lower, upper }))
    }

    /// The state, to be stored.
    pub fn numbers(&self) -> &[u64; 5] {
        &self.numbers
    }

    /// A stored state; numbers that are no state are refused at their first use.
    pub fn from_numbers(numbers: [u64; 5]) -> Campaign {
        Campaign { numbers }
    }
}

/// Thousandths of a failure in `time` ms: the estimate and its 95% bounds.
#[derive(Clone, Copy, Debug, PartialEq, Eq)]
pub struct Bounds {
    pub estimate: u64,
    pub lower: u64,
    pub upper: u64,
    /// The timed samples times the step, in ms.
    pub time: u64,
}

/// Records that go on past a failure, added up by the binomial method.
#[derive(Clone, Debug, PartialEq, Eq)]
pub struct Sum {
    numbers: [u64; 3],
}

impl Sum {
    /// The sum of no records, all of them to be at this step in ms: item 1, 1 to 10,000.
    pub fn open(step: u64) -> Result<Sum, Refusal> {
        let mut s = [0; 3];
        answer(|carried| unsafe { c::chim_sum_open(step, s.as_mut_ptr(), s.len(), carried) })?;
        Ok(Sum { numbers: s })
    }

    /// Adds a record's groups and its timed samples. A record of another step is refused by 1 with item 1.
    pub fn add(&mut self, record: &Record) -> Result<(), Refusal> {
        let (s, added) = (&mut self.numbers, &record.numbers);
        answer(|carried| unsafe { c::chim_sum_add(s.as_mut_ptr(), s.len(), added.as_ptr(), added.len(), carried) })?;
        Ok(())
    }

    /// The counted failures, N.
    pub fn failures(&self) -> u64 {
        self.numbers[1]
    }

    /// The timed samples, P.
    pub fn samples(&self) -> u64 {
        self.numbers[2]
    }

    /// The bounds in thousandths of a failure; `None` while there is no record.
    pub fn bounds(&self) -> Result<Option<Bounds>, Refusal> {
        let (s, mut x) = (&self.numbers, [0; 4]);
        let some = answer(|carried| unsafe { c::chim_sum_bounds(s.as_ptr(), s.len(), x.as_mut_ptr(), x.len(), carried) })?;
        let [estimate, lower, upper, time] = x;
        Ok((some == 1).then_some(Bounds { estimate, lower, upper, time }))
    }

    /// The three rates; `None` while there is no record.
    pub fn rates(&self) -> Result<Option<Rates>, Refusal> {
        let s = &self.numbers;
        let (mut estimate, mut lower, mut upper) = (0.0, 0.0, 0.0);
        let some = answer(|carried| unsafe { c::chim_sum_rates(s.as_ptr(), s.len(), &mut estimate, &mut lower, &mut upper, carried) })?;
        Ok((some == 1).then_some(Rates { estimate, lower, upper }))
    }

    /// The state, to be stored.
    pub fn numbers(&self) -> &[u64; 3] {
        &self.numbers
    }

    /// A stored state; numbers that are no state are refused at their first use.
    pub fn from_numbers(numbers: [u64; 3]) -> Sum {
        Sum { numbers }
    }
}

/// What a loading condition comes to.
#[derive(Clone, Copy, Debug, PartialEq, Eq)]
pub enum Standing {
    /// Every campaign is accepted.
    Accepted,
    /// At least one is rejected.
    Rejected,
    /// Neither.
    Open,
}

/// The campaigns' numbers, and how many there are; of more than 64, which are refused by their number, as many as make it so.
fn rows(campaigns: &[Campaign]) -> ([[u64; 5]; 65], usize) {
    let mut rows = [[0; 5]; 65];
    for (row, campaign) in rows.iter_mut().zip(campaigns) {
        *row = campaign.numbers;
    }
    (rows, campaigns.len().min(65))
}

/// What a loading condition of 1 to 64 campaigns, one for each design situation, comes to.
pub fn judge_condition(campaigns: &[Campaign]) -> Result<Standing, Refusal> {
    let (rows, n) = rows(campaigns);
    Ok(match answer(|carried| unsafe { c::chim_condition_judge(rows.as_ptr(), n, carried) })? {
        1 => Standing::Accepted,
        2 => Standing::Rejected,
        _ => Standing::Open,
    })
}

/// The report of a loading condition: for each situation its number, N, N*, T, letter and blocks billed; then total, the sums of M, N, T and blocks, and A, R or O.
///
/// ```
/// use chimenickel::{write_report, Campaign};
///
/// let mut campaign = Campaign::open(7_200_000)?;
/// campaign.enter(false, 1_800_000)?;
/// campaign.enter(true, 933_980)?;
/// let report = write_report(&[campaign, Campaign::open(7_200_000)?])?;
/// assert_eq!(report, "1\t1\t1\t2733980\tC\t1\n2\t0\t0\t0\tE\t0\ntotal\t2\t1\t2733980\t1\tO\n");
/// # Ok::<(), chimenickel::Refusal>(())
/// ```
#[cfg(feature = "std")]
pub fn write_report(campaigns: &[Campaign]) -> Result<String, Refusal> {
    let (rows, n) = rows(campaigns);
    // room for any report of so many situations, of which no more than 64 are taken
    let mut text = vec![0; 40 + 28 * n.min(64)];
    let bytes = answer(|carried| unsafe { c::chim_condition_report(rows.as_ptr(), n, text.as_mut_ptr(), text.len(), carried) })?;
    text.truncate(bytes as usize);
    Ok(String::from_utf8(text).expect("a report is letters, digits, tabs and LFs"))
}

/// One table of 32 places that bureaus 1 and 2 share, at most 16 jobs each. Each bureau is answered as at a table of its own.
#[derive(Clone, Debug, Default, PartialEq, Eq)]
pub struct Bench {
    table: [[u64; 6]; 32],
}

impl Bench {
    /// A bench without jobs.
    pub fn new() -> Bench {
        Bench::default()
    }

    /// Takes a job at this standard: its place, the lowest that is free.
    pub fn take(&mut self, bureau: u64, standard: u64) -> Result<u64, Refusal> {
        let t = &mut self.table;
        answer(|carried| unsafe { c::chim_bench_take(t.as_mut_ptr(), t.len(), bureau, standard, carried) })
    }

    /// Enters a result as [`Campaign::enter`] does, into the campaign in the bureau's place.
    pub fn enter(&mut self, bureau: u64, place: u64, failed: bool, exposure: u64) -> Result<(), Refusal> {
        let t = &mut self.table;
        answer(|carried| unsafe { c::chim_bench_enter(t.as_mut_ptr(), t.len(), bureau, place, u64::from(failed), exposure, carried) })?;
        Ok(())
    }

    pub fn verdict(&mut self, bureau: u64, place: u64) -> Result<Verdict, Refusal> {
        let t = &mut self.table;
        let (mut lower, mut upper) = (0.0, 0.0);
        let case =
            answer(|carried| unsafe { c::chim_bench_verdict(t.as_mut_ptr(), t.len(), bureau, place, &mut lower, &mut upper, carried) })?;
        Ok(Verdict::told(case, lower, upper))
    }

    /// The three rates; `None` while there is no record.
    pub fn rates(&mut self, bureau: u64, place: u64) -> Result<Option<Rates>, Refusal> {
        let t = &mut self.table;
        let (mut estimate, mut lower, mut upper) = (0.0, 0.0, 0.0);
        let some = answer(|carried| unsafe {
            c::chim_bench_rates(t.as_mut_ptr(), t.len(), bureau, place, &mut estimate, &mut lower, &mut upper, carried)
        })?;
        Ok((some == 1).then_some(Rates { estimate, lower, upper }))
    }

    /// Gives the place back: it is free again.
    pub fn give_back(&mut self, bureau: u64, place: u64) -> Result<(), Refusal> {
        let t = &mut self.table;
        answer(|carried| unsafe { c::chim_bench_give_back(t.as_mut_ptr(), t.len(), bureau, place, carried) })?;
        Ok(())
    }

    /// The table, to be stored: for each place its owner, 0 if it is free, and the five numbers of its campaign.
    pub fn numbers(&self) -> &[[u64; 6]; 32] {
        &self.table
    }

    /// A stored table; numbers that are no table are refused at their first use.
    pub fn from_numbers(table: [[u64; 6]; 32]) -> Bench {
        Bench { table }
    }
}

/// An envelope peak: its magnitude, and its time in ms after the ramp.
#[derive(Clone, Copy, Debug, PartialEq, Eq)]
pub struct Peak {
    pub size: u32,
    pub time: u32,
}

/// Writes the envelope peaks of a whole record, in order, magnitudes from the start of `sizes` and times from the start of `times`, whose other places stay, and
/// answers their number.
pub fn envelope_peaks_into(
    step: u64,
    ramp: u64,
    decorrelation: u64,
    samples: &[i32],
    sizes: &mut [u32],
    times: &mut [u32],
) -> Result<usize, Refusal> {
    let k = answer(|carried| unsafe {
        c::chim_envelope_find(
            step,
            ramp,
            decorrelation,
            samples.as_ptr(),
            samples.len(),
            sizes.as_mut_ptr(),
            sizes.len(),
            times.as_mut_ptr(),
            times.len(),
            carried,
        )
    })?;
    Ok(k as usize)
}

/// The envelope peaks of a whole record, in order of time.
#[cfg(feature = "std")]
pub fn envelope_peaks(step: u64, ramp: u64, decorrelation: u64, samples: &[i32]) -> Result<Vec<Peak>, Refusal> {
    let (mut sizes, mut times) = (Vec::new(), Vec::new());
    if let Err(Refusal::Room(places)) = envelope_peaks_into(step, ramp, decorrelation, samples, &mut sizes, &mut times) {
        sizes.resize(places as usize, 0);
        times.resize(places as usize, 0);
    }
    let k = envelope_peaks_into(step, ramp, decorrelation, samples, &mut sizes, &mut times)?;
    Ok(sizes.iter().zip(&times).take(k).map(|(&size, &time)| Peak { size, time }).collect())
}

/// A tail: the peaks sorted downwards, and the Hill sum over the k largest in units of 1/65,536.
#[cfg(feature = "std")]
#[derive(Clone, Debug, PartialEq, Eq)]
pub struct Tail {
    pub sorted: Vec<u32>,
    pub k: u64,
    pub sum: u64,
}

#[cfg(feature = "std")]
impl Tail {
    /// Fits the k largest of up to 4,096 peaks, each from 1 to 1,000,000.
    pub fn fit(peaks: &[u32], k: u64) -> Result<Tail, Refusal> {
        let mut sorted = vec![0; peaks.len()];
        let sum = answer(|carried| unsafe {
            c::chim_tail_fit(peaks.as_ptr(), peaks.len(), k, sorted.as_mut_ptr(), sorted.len(), carried)
        })?;
        Ok(Tail { sorted, k, sum })
    }

    /// The tail's shape by document 001, formula (11): the mean of the natural logarithms.
    pub fn shape(&self) -> f64 {
        self.sum as f64 * core::f64::consts::LN_2 / (65_536.0 * self.k as f64)
    }
}

/// Upper row n of the quantile table in millionths of an expected failure, for n from 1 to 64.
pub fn upper_row(n: u64) -> Option<u32> {
    Some(unsafe { c::chim_upper_row(n) }).filter(|_| (1..=64).contains(&n))
}

/// Lower row n of the quantile table in millionths of an expected failure, for n from 0 to 64.
pub fn lower_row(n: u64) -> Option<u32> {
    Some(unsafe { c::chim_lower_row(n) }).filter(|_| n <= 64)
}

/// The samples of a simulator's comma file, in thousandths of a degree: one a line, time in ms, comma, roll in degrees, each line ended by LF; times start
/// at 0 and grow by the step.
///
/// ```
/// let samples = chimenickel::read_comma(b"0,0\n500,-41.5\n", 500)?;
/// assert_eq!(samples, [0, -41_500]);
/// assert_eq!(chimenickel::write_comma(&samples, 500)?, b"0,0.000\n500,-41.500\n");
/// # Ok::<(), chimenickel::Refusal>(())
/// ```
#[cfg(feature = "std")]
pub fn read_comma(text: &[u8], step: u64) -> Result<Vec<i32>, Refusal> {
    // a sample has a line, and a line an LF
    let mut samples = vec![0; text.iter().filter(|&&b| b == b'\n').count()];
    let n = answer(|carried| unsafe { c::chim_comma_read(text.as_ptr(), text.len(), step, samples.as_mut_ptr(), samples.len(), carried) })?;
    samples.truncate(n as usize);
    Ok(samples)
}

/// Samples as a comma file, always with three decimals.
#[cfg(feature = "std")]
pub fn write_comma(samples: &[i32], step: u64) -> Result<Vec<u8>, Refusal> {
    let mut text = Vec::new();
    loop {
        match answer(|carried| unsafe { c::chim_comma_write(samples.as_ptr(), samples.len(), step, text.as_mut_ptr(), text.len(), carried) }) {
            Err(Refusal::Room(bytes)) => text.resize(bytes as usize, 0),
            Err(refusal) => return Err(refusal),
            Ok(_) => return Ok(text),
        }
    }
}

/// The job sheet of a standard and its records, in order: exposures in ms, with a minus on the failed ones.
///
/// ```
/// let sheet = chimenickel::write_sheet(7_200_000, &[1_800_000, -933_980])?;
/// assert_eq!(sheet, "standard\t7200000\n1\t0\t1800000\n2\t1\t933980\n");
/// assert_eq!(chimenickel::read_records(sheet.as_bytes()), Ok((7_200_000, vec![1_800_000, -933_980])));
/// # Ok::<(), chimenickel::Refusal>(())
/// ```
#[cfg(feature = "std")]
pub fn write_sheet(standard: u64, records: &[i32]) -> Result<String, Refusal> {
    // room for any sheet of so many records, of which no more than 100,000 are taken
    let mut text = vec![0; 22 + 18 * records.len().min(100_000)];
    let n = answer(|carried| unsafe { c::chim_sheet_write(standard, records.as_ptr(), records.len(), text.as_mut_ptr(), text.len(), carried) })?;
    text.truncate(n as usize);
    Ok(String::from_utf8(text).expect("a sheet is letters, digits, tabs and LFs"))
}

/// The standard and the records of a whole job sheet, as `write_sheet` takes them; or its first bad line.
#[cfg(feature = "std")]
pub fn read_records(text: &[u8]) -> Result<(u64, Vec<i32>), BadLine> {
    // a record has a line, and a line an LF
    let mut records = vec![0; text.iter().filter(|&&b| b == b'\n').count()];
    let (mut standard, mut line, mut column) = (0, 0, 0);
    let read = answer(|carried| unsafe {
        c::chim_sheet_records(text.as_ptr(), text.len(), records.as_mut_ptr(), records.len(), &mut standard, &mut line, &mut column, carried)
    });
    let n = read.map_err(|refusal| BadLine { line, column, refusal })?;
    records.truncate(n as usize);
    Ok((standard, records))
}

#[cfg(all(test, feature = "std"))]
mod tests {
    use super::*;
    use std::string::ToString;

    const ITEMS: Items = Items { step: 500, ramp: 0, level: 40_000, decorrelation: 2_000, acceleration_level: 9_810 };
    const ROLL: [i32; 7] = [0, 41_000, 39_000, 41_000, 39_000, 41_000, 0];
    /// Above its level where the roll is, and where it has just been.
    const ACCELERATION: [i32; 7] = [0, 0, 0, -9_811, 9_811, 0, 9_811];

    fn fed(roll: &[i32]) -> Record {
        let mut record = Record::open(ITEMS).unwrap();
        record.feed_roll(roll).unwrap();
        record
    }

    fn fed_both(roll: &[i32], acceleration: &[i32]) -> Record {
        let mut record = Record::open(ITEMS).unwrap();
        record.feed(roll, acceleration).unwrap();
        record
    }

    #[test]
    fn every_cut_leads_to_the_whole() {
        let whole = fed(&ROLL);
        assert_eq!((whole.samples(), whole.crossings(), whole.counted(), whole.largest_set(), whole.first()), (7, 3, 1, 2, Some(1)));
        let both = fed_both(&ROLL, &ACCELERATION);
        assert_eq!((both.samples(), both.crossings(), both.counted(), both.largest_set(), both.first()), (7, 2, 1, 1, Some(1)));
        for cut in 0..=ROLL.len() {
            let mut record = fed(&ROLL[..cut]);
            record.feed_roll(&ROLL[cut..]).unwrap();
            assert_eq!(record, whole);
            let mut record = fed_both(&ROLL[..cut], &ACCELERATION[..cut]);
            record.feed(&ROLL[cut..], &ACCELERATION[cut..]).unwrap();
            assert_eq!(record, both);
        }
    }

    #[test]
    fn either_channel_alone_is_a_job() {
        let acceleration = ROLL.map(|x| -x);
        let mut record = Record::open(Items { level: 1, acceleration_level: 40_000, ..ITEMS }).unwrap();
        record.feed_acceleration(&acceleration[..4]).unwrap();
        record.feed_acceleration(&acceleration[4..]).unwrap();
        assert_eq!(record.end(), fed(&ROLL).end());
        let mut with = fed(&ROLL[..4]);
        with.feed(&ROLL[4..], &[0; 3]).unwrap();
        assert_eq!(with, fed(&ROLL));
        assert!(with_zeros(3, |long| with_zeros(2, |short| long == [0; 3] && short == [0; 2])));
    }

    #[test]
    fn a_refused_piece_leaves_the_record() {
        let mut record = fed(&ROLL);
        let before = record.clone();
        assert_eq!(record.feed_roll(&[0, 0, 1_000_001]), Err(Refusal::Sample(2)));
        assert_eq!(record.feed(&[0, 0, 1_000_001], &[0, -1_000_001, 0]), Err(Refusal::Acceleration(1)));
        assert_eq!(record.feed(&[0, i32::MIN, 0], &[0, i32::MAX, 0]), Err(Refusal::Sample(1)));
        assert_eq!(record.feed(&[0, i32::MIN], &[0]), Err(Refusal::Unequal));
        assert_eq!(record, before);
        assert_eq!((Refusal::Sample(1).number(), Refusal::Acceleration(1).number(), Refusal::Unequal.number()), (2, 2, 12));
    }

    #[test]
    fn a_sheet_is_its_records() {
        let mut c = Campaign::open(7_200_000).unwrap();
        c.enter(false, 1_800_000).unwrap();
        c.enter(true, 933_980).unwrap();
        assert_eq!(Campaign::read_sheet(b"standard\t7200000\n1\t0\t1800000\n2\t1\t933980\n"), Ok(c));
        assert_eq!(Campaign::read_sheet(b"standard\t7200000\n1\t0\t0\n"), Err(BadLine { line: 2, column: 0, refusal: Refusal::TooShort }));
        assert_eq!(Campaign::read_sheet(b""), Err(BadLine { line: 1, column: 0, refusal: Refusal::Line(1) }));
        assert_eq!(Campaign::read_sheet(b"standard\t7200000\n1\t0\t18x0\n"), Err(BadLine { line: 2, column: 7, refusal: Refusal::Line(2) }));
    }

    #[test]
    fn a_refusal_says_what_it_may_be_of() {
        let sheet = |exposure| Campaign::read_sheet(std::format!("standard\t1\n1\t0\t{exposure}\n").as_bytes());
        for (exposure, number) in [(0, 4), (10_000_001, 3)] {
            let refusal = sheet(exposure).unwrap_err().refusal;
            assert!(refusal.number() == number && refusal.to_string().contains("a sheet's exposure"));
        }
        let bad: std::boxed::Box<dyn std::error::Error> = Campaign::read_sheet(b"standard\t1x\n").unwrap_err().into();
        assert_eq!(bad.to_string(), "line 1, column 11: line 1 of the sheet is malformed");
        let refusal = Campaign::open(1).unwrap().enter(false, 0).unwrap_err();
        assert!(refusal.number() == 8 && refusal.to_string().contains("no result"));
    }

    #[test]
    fn items_are_refused_lowest_first() {
        assert_eq!(Record::open(Items { level: 0, decorrelation: u64::MAX, acceleration_level: 0, ..ITEMS }), Err(Refusal::Item(3)));
        assert_eq!(Record::open(Items { acceleration_level: 1_000_001, ..ITEMS }), Err(Refusal::Item(6)));
        assert_eq!(Campaign::open(0), Err(Refusal::Item(5)));
    }

    #[test]
    fn times_fit_or_tell_the_room() {
        let apart = Items { decorrelation: 0, ..ITEMS };
        let zeros = [0; 7];
        assert_eq!((list(ITEMS, &ROLL, &zeros), list(apart, &ROLL, &zeros)), (Ok(vec![500]), Ok(vec![500, 1_500, 2_500])));
        assert_eq!(list(apart, &ROLL, &ACCELERATION), Ok(vec![500, 1_500]));
        let mut one = [7];
        assert_eq!(list_into(apart, &ROLL, &zeros, &mut one), Err(Refusal::Room(3)));
        assert_eq!(one, [7]);
        assert_eq!(list(ITEMS, &ROLL[..1], &zeros[..1]), Err(Refusal::TooShort));
        assert_eq!(list(ITEMS, &ROLL, &zeros[..6]), Err(Refusal::Unequal));
        assert_eq!(list(ITEMS, &[0, 1_000_001], &[1_000_001, 0]), Err(Refusal::Acceleration(0)));
        assert_eq!(first_crossing(&ROLL, &zeros, 0, 40_000, 9_810), Some(1));
        assert_eq!(first_crossing(&ROLL, &zeros, 0, 41_000, 9_810), None);
        assert_eq!(first_crossing(&ROLL, &ACCELERATION, 0, 41_000, 9_810), Some(3));
        assert_eq!(first_crossing(&ROLL, &ACCELERATION[..3], 0, 41_000, 9_810), None);
    }

    #[test]
    fn the_marked_verdicts() {
        let mut c = Campaign::open(7_200_000).unwrap();
        assert_eq!((c.verdict(), c.rates(), c.censored()), (Ok(Verdict::NoRecord), Ok(None), Ok(0)));
        c.enter(true, 182_282).unwrap();
        assert!(matches!(c.verdict(), Ok(Verdict::Reject { .. })));
        let mut c = Campaign::open(7_200_000).unwrap();
        for exposure in [8_853_312, 8_853_312, 8_853_312] {
            c.enter(false, exposure).unwrap();
        }
        assert_eq!((c.records(), c.failures(), c.exposure(), c.censored()), (3, 0, 26_559_936, Ok(1)));
        assert!(matches!(c.verdict(), Ok(Verdict::Continue { .. })));
        assert_eq!(c.rates().unwrap().unwrap().lower, 0.0);
        assert_eq!(c.enter(false, 0), Err(Refusal::BrokenState));
        assert_eq!(c.enter(false, 10_000_001), Err(Refusal::BrokenState));
    }

    #[test]
    fn a_result_enters_by_what_it_is() {
        let ended = fed(&ROLL).end().unwrap();
        let (mut whole, mut taken) = (Campaign::open(7_200_000).unwrap(), Campaign::open(7_200_000).unwrap());
        whole.enter_result(&ended).unwrap();
        taken.enter(ended.failed(), ended.exposure).unwrap();
        assert_eq!(whole, taken);
        // counted twice or not at all, with another largest set: a campaign does not look at it
        whole.enter_result(&Ended { crossings: 9, counted: 2, first: None, exposure: 1_000, largest_set: 0 }).unwrap();
        assert_eq!((whole.records(), whole.failures(), whole.exposure()), (2, 1, ended.exposure + 1_000));
        // the library's 0 for no place is no failure either
        let none = Ended { first: Some(0), ..ended };
        whole.enter_result(&none).unwrap();
        assert_eq!((whole.failures(), none.failed()), (1, false));
        let before = whole.clone();
        assert_eq!(whole.enter_result(&Ended { exposure: 0, ..ended }), Err(Refusal::BrokenState));
        assert_eq!(whole.enter_result(&Ended { exposure: 10_000_001, ..ended }), Err(Refusal::BrokenState));
        let mut full = Campaign::from_numbers([7_200_000, 64, 64, 64_000, 1]);
        assert_eq!(full.enter_result(&ended), Err(Refusal::RowsUsedUp));
        assert_eq!(whole, before);
    }

    #[test]
    fn numbers_that_are_no_state() {
        let mut record = Record::from_numbers([u64::MAX; 14]);
        assert_eq!(record.feed(&[], &[0]), Err(Refusal::BrokenState));
        assert_eq!(Campaign::from_numbers([1, 1, 1, 1, 2]).verdict(), Err(Refusal::BrokenState));
        let stored = *fed(&ROLL).numbers();
        assert_eq!(Record::from_numbers(stored), fed(&ROLL));
        let mut no_group = stored;
        no_group[11] = 0;
        assert_eq!(Record::from_numbers(no_group).end(), Err(Refusal::BrokenState));
        let mut no_last = stored;
        no_last[13] = 2_000_001;
        assert_eq!(Record::from_numbers(no_last).feed_roll(&[]), Err(Refusal::BrokenState));
        for length in [10, 12] {
            let (mut old, mut carried, mut channel) = (stored[..length].to_vec(), 7, 7);
            let number = unsafe {
                c::chim_record_feed(old.as_mut_ptr(), length, ROLL.as_ptr(), 0, ROLL.as_ptr(), 0, &mut carried, &mut channel)
            };
            assert_eq!((number, carried, channel), (8, 0, 0));
        }
    }

    #[test]
    fn two_bureaus_at_one_bench() {
        let mut bench = Bench::new();
        assert_eq!((bench.take(1, 7_200_000), bench.take(2, 600_000)), (Ok(0), Ok(1)));
        bench.enter(1, 0, true, 182_282).unwrap();
        bench.enter(2, 1, false, 3_000_000).unwrap();
        assert!(matches!(bench.verdict(1, 0), Ok(Verdict::Reject { .. })));
        assert!(matches!(bench.verdict(2, 1), Ok(Verdict::Accept { .. })));
        assert!(bench.rates(1, 0).unwrap().is_some());
        let before = bench.clone();
        assert_eq!(bench.take(3, 0), Err(Refusal::NoBureau));
        assert_eq!(bench.take(1, 0), Err(Refusal::Item(5)));
        assert_eq!(bench.verdict(2, 0), Err(Refusal::NotItsOwn));
        assert_eq!(bench.give_back(1, 32), Err(Refusal::NotItsOwn));
        assert_eq!(bench.enter(1, 0, false, 0), Err(Refusal::BrokenState));
        assert_eq!(bench, before);
        bench.give_back(1, 0).unwrap();
        assert_eq!((0..16).map(|_| bench.take(1, 1).unwrap()).max(), Some(16));
        assert_eq!(bench.take(1, 1), Err(Refusal::BureauFull));
        let mut broken = *bench.numbers();
        broken[31][5] = 1;
        assert_eq!(Bench::from_numbers(broken).take(2, 1), Err(Refusal::BrokenState));
    }

    #[test]
    fn records_are_added_up() {
        let items = Items { ramp: 2, decorrelation: 1_000, ..ITEMS };
        let mut record = Record::open(items).unwrap();
        let mut sum = Sum::open(500).unwrap();
        assert_eq!((sum.bounds(), sum.rates()), (Ok(None), Ok(None)));
        record.feed_roll(&[0, 0, 0]).unwrap();
        assert_eq!(sum.add(&record), Err(Refusal::TooShort));
        record.feed(&[41_000, 0, 0, 0, 0, 0, 0], &[0, 0, 0, -9_811, 0, 0, 0]).unwrap();
        sum.add(&record).unwrap();
        sum.add(&record).unwrap();
        assert_eq!((sum.failures(), sum.samples()), (4, 16));
        // 1,960² · 4 · 12 / 16 is 3,394.8 squared
        assert_eq!(sum.bounds(), Ok(Some(Bounds { estimate: 4_000, lower: 605, upper: 7_395, time: 8_000 })));
        assert_eq!(sum.rates(), Ok(Some(Rates { estimate: 0.5, lower: 605.0 / 8_000.0, upper: 7_395.0 / 8_000.0 })));
        let other = Record::open(Items { step: 499, ..items }).unwrap();
        assert_eq!(sum.add(&other), Err(Refusal::TooShort));
        let mut other = other;
        other.feed_roll(&[0; 4]).unwrap();
        assert_eq!(sum.add(&other), Err(Refusal::Item(1)));
        let mut full = Sum::from_numbers([500, 9_999, 20_000]);
        assert_eq!(full.add(&record), Err(Refusal::SumFull));
        assert_eq!((full.numbers(), Refusal::SumFull.number()), (&[500, 9_999, 20_000], 11));
        assert_eq!(Sum::from_numbers([500, 3, 2]).rates(), Err(Refusal::BrokenState));
        assert_eq!(Sum::open(10_001), Err(Refusal::Item(1)));
    }

    #[test]
    fn conditions_are_judged_and_reported() {
        let campaign = |m, n, t, failed| Campaign::from_numbers([7_200_000, m, n, t, failed]);
        let (empty, going) = (campaign(0, 0, 0, 0), campaign(2, 1, 2_733_980, 1));
        let (accepted, rejected, broken) = (campaign(3, 0, 26_559_937, 0), campaign(1, 1, 182_282, 1), campaign(1, 1, 182_282, 2));
        let report = write_report(&[accepted.clone(), rejected.clone()]).unwrap();
        assert_eq!(report, "1\t0\t1\t26559937\tA\t0\n2\t1\t1\t182282\tR\t1\ntotal\t4\t1\t26742219\t1\tR\n");
        assert_eq!(judge_condition(&vec![accepted.clone(); 64]), Ok(Standing::Accepted));
        assert_eq!(judge_condition(&[accepted.clone(), rejected, empty.clone()]), Ok(Standing::Rejected));
        assert_eq!(judge_condition(&[accepted.clone(), going.clone()]), Ok(Standing::Open));
        assert_eq!(judge_condition(&[accepted, empty]), Ok(Standing::Open));
        assert_eq!(write_report(&vec![campaign(100_000, 64, 1_000_000_000_000, 1); 64]).map(|report| report.len()), Ok(1_823));
        assert_eq!((judge_condition(&[]), write_report(&vec![broken.clone(); 65])), (Err(Refusal::Condition), Err(Refusal::Condition)));
        let two = [going, broken.clone(), broken];
        assert_eq!((judge_condition(&two), write_report(&two)), (Err(Refusal::BrokenSituation(2)), Err(Refusal::BrokenSituation(2))));
        assert_eq!((Refusal::BrokenSituation(2).number(), Refusal::Condition.number()), (8, 18));
    }

    #[test]
    fn envelope_peaks_are_found() {
        let roll = [9, 0, 3, 5, 0, 5, -2, -7, 0, -7, 1, -9, 8, -1, 9, -9, 1, -8, 2];
        let both = vec![Peak { size: 9, time: 5_000 }, Peak { size: 9, time: 6_500 }];
        assert_eq!(envelope_peaks(500, 1, 1_499, &roll), Ok(both.clone()));
        assert_eq!(envelope_peaks(500, 1, 1_500, &roll), Ok(both[..1].to_vec()));
        let (mut sizes, mut times) = ([5; 3], [6; 1]);
        assert_eq!(envelope_peaks_into(500, 1, 1_499, &roll, &mut sizes, &mut times), Err(Refusal::Room(2)));
        assert_eq!((sizes, times), ([5; 3], [6; 1]));
        assert_eq!(envelope_peaks_into(500, 1, 1_500, &roll, &mut sizes, &mut times), Ok(1));
        assert_eq!((sizes, times), ([9, 5, 5], [5_000]));
        assert_eq!(envelope_peaks(500, 1_000_001, 0, &roll), Err(Refusal::Item(2)));
        assert_eq!(envelope_peaks(500, 18, 0, &roll), Err(Refusal::TooShort));
    }

    #[test]
    fn a_tail_is_sorted_and_summed() {
        let tail = Tail::fit(&[1, 4, 2, 8], 3).unwrap();
        assert_eq!((tail.sorted.as_slice(), tail.sum), (&[8, 4, 2, 1][..], 3 * 65_536));
        assert!((tail.shape() - std::f64::consts::LN_2).abs() < 1e-12);
        assert_eq!(Tail::fit(&[1, 2], 3), Err(Refusal::Tail));
        assert_eq!(Tail::fit(&[1; 4_097], 2), Err(Refusal::Tail));
        assert_eq!(Tail::fit(&[1, 0, 1_000_001], 2), Err(Refusal::Peak(1)));
    }

    #[test]
    fn the_table_and_its_ends() {
        assert_eq!((upper_row(1), lower_row(1)), (Some(3_688_880), Some(25_317)));
        assert_eq!((upper_row(0), lower_row(0)), (None, Some(0)));
        assert_eq!((upper_row(65), lower_row(65)), (None, None));
    }

    #[test]
    fn comma_files_are_read_and_written() {
        let samples = [0, -500, 41_500, 1_000_000, -1_000_000, 7];
        let text = write_comma(&samples, 50).unwrap();
        assert_eq!(text, b"0,0.000\n50,-0.500\n100,41.500\n150,1000.000\n200,-1000.000\n250,0.007\n");
        assert_eq!(read_comma(&text, 50), Ok(samples.to_vec()));
        assert_eq!(read_comma(b"", 50), Ok(vec![]));
        assert_eq!(read_comma(b"0,-0\n", 0), Err(Refusal::Item(1)));
        assert_eq!(read_comma(b"0,2000\n50,1.", 50), Err(Refusal::CommaLine(2)));
        assert_eq!(read_comma(b"0,0\n50,1000.001\n", 50), Err(Refusal::Sample(1)));
        assert_eq!(write_comma(&[0, 1_000_001], 50), Err(Refusal::Sample(1)));
    }

    #[test]
    fn sheets_are_written_and_read_back() {
        let records = [1_800_000, -933_980, 10_000_000, -1, 1];
        let sheet = write_sheet(7_200_000, &records).unwrap();
        assert_eq!(sheet, "standard\t7200000\n1\t0\t1800000\n2\t1\t933980\n3\t0\t10000000\n4\t1\t1\n5\t0\t1\n");
        assert_eq!(read_records(sheet.as_bytes()), Ok((7_200_000, records.to_vec())));
        assert_eq!(Campaign::read_sheet(sheet.as_bytes()).unwrap().records(), 5);
        assert_eq!(write_sheet(1, &[]), Ok("standard\t1\n".to_string()));
        assert_eq!(write_sheet(0, &[0]), Err(Refusal::Item(5)));
        assert_eq!(write_sheet(1, &[1, 0, i32::MIN]), Err(Refusal::TooShort));
        assert_eq!(write_sheet(1, &[1, i32::MIN, 0]), Err(Refusal::TooLong));
        assert_eq!(write_sheet(1, &[1; 100_001]), Err(Refusal::CampaignFull));
        assert_eq!(write_sheet(1, &[-1; 65]), Err(Refusal::RowsUsedUp));
        let full = vec![10_000_000; 100_000];
        let sheet = write_sheet(100_000_000_000, &full).unwrap();
        assert_eq!(read_records(sheet.as_bytes()), Ok((100_000_000_000, full)));
        assert_eq!(read_records(b"standard\t1\n1\t0\t0\n"), Err(BadLine { line: 2, column: 0, refusal: Refusal::TooShort }));
        assert_eq!(read_records(b"standard\t1\n1\t0\tx\n"), Err(BadLine { line: 2, column: 5, refusal: Refusal::Line(2) }));
    }
}
