// The library against documents 01 and 02 (`paper`), through its C functions: every answer, what it carries, and the
// later contents of everything lent, on generated cases. The seed is fixed. The last line says how many cases agreed; a
// disagreement, or a refusal that was hardly met, ends the run.
mod bench;
mod library;
mod paper;
mod random;
mod single;

use paper::{Campaign, Items, Record, Refused, RefusedOfTwo, Rows, Verdict, LONGEST, MOST_RECORDS, ROWS, SAMPLE};
use random::Random;
use std::collections::BTreeMap;
use std::fmt::Debug;

/// What each entry may answer (include/chimenickel.h); each has to be met at least this often. Where refusal 2 names
/// the acceleration it stands in a row of its own.
const EXPECTED: [(&str, &[u64]); 17] = [
    ("record_open", &[0, 1, 8]),
    ("record_feed", &[0, 2, 3, 8, 12]),
    (FED_ACCELERATION, &[2]),
    ("record_list", &[0, 1, 2, 3, 4, 7, 12]),
    (LISTED_ACCELERATION, &[2]),
    ("campaign_open", &[0, 1, 8]),
    ("record_end", &[0, 4, 8]),
    ("campaign_enter", &[0, 5, 6, 8]),
    ("campaign_enter_result", &[0, 5, 6, 8]),
    ("campaign_censored", &[0, 8]),
    ("campaign_verdict", &[0, 8]),
    ("campaign_rates", &[0, 8]),
    ("bench_take", &[0, 1, 8, 13, 14]),
    ("bench_enter", &[0, 5, 6, 8, 13, 15]),
    ("bench_verdict", &[0, 8, 13, 15]),
    ("bench_rates", &[0, 8, 13, 15]),
    ("bench_give_back", &[0, 8, 13, 15]),
];
const FED_ACCELERATION: &str = "feed, acceleration";
const LISTED_ACCELERATION: &str = "list, acceleration";

/// What else has to be met as often: comparisons that are no entry's, and what the two channels do at a sample.
const BESIDE: [&str; 11] = [
    "first_crossing",
    "whole record",
    "largest set",
    "groups",
    "one channel",
    "marked cases",
    "by the roll",
    "by the acceleration",
    "by both at once",
    "handed over",
    "bad in both",
];
const OFTEN: u64 = 200;

// ---- the arrays of the header

const RECORD_NUMBERS: usize = 14;
const RESULT_NUMBERS: usize = 5;

fn code(x: i32) -> u64 {
    let x = i64::from(x);
    (if x < 0 { -2 * x - 1 } else { 2 * x }) as u64
}

fn record_numbers(r: &Record) -> Vec<u64> {
    let [step, ramp, level, decorrelation, acceleration_level] = r.items;
    let [roll, acceleration] = r.last.map(code);
    let mut s = vec![step, ramp, level, decorrelation, r.n, roll, r.crossings, r.largest, r.first, r.last_chosen, r.last_crossing, r.groups];
    s.extend([acceleration_level, acceleration]);
    s
}

fn record_in(s: &[u64]) -> Option<Record> {
    if s.len() != RECORD_NUMBERS || s[5] > 2_000_000 || s[13] > 2_000_000 {
        return None;
    }
    let last = [s[5], s[13]].map(|code| {
        let half = (code / 2) as i32;
        if code % 2 == 0 { half } else { -half - 1 }
    });
    let items = [s[0], s[1], s[2], s[3], s[12]];
    Some(Record { items, n: s[4], last, crossings: s[6], largest: s[7], first: s[8], last_chosen: s[9], last_crossing: s[10], groups: s[11] })
}

fn campaign_numbers(c: &Campaign) -> Vec<u64> {
    vec![c.standard, c.records, c.failures, c.exposure, u64::from(c.failed)]
}

fn campaign_in(s: &[u64]) -> Option<Campaign> {
    if s.len() != 5 || s[4] > 1 {
        return None;
    }
    Some(Campaign { standard: s[0], records: s[1], failures: s[2], exposure: s[3], failed: s[4] == 1 })
}

/// The number, what it carries and an array afterwards, from an answer that replaces the array and carries nothing.
fn told<T>(answer: Result<T, Refused>, numbers: impl Fn(&T) -> Vec<u64>, before: &[u64]) -> (u64, u64, Vec<u64>) {
    match answer {
        Ok(state) => (0, 0, numbers(&state)),
        Err((number, carried)) => (number, carried, before.to_vec()),
    }
}

fn times_before(places: usize) -> Vec<u32> {
    (0..places as u32).map(|k| u32::MAX - k).collect()
}

/// What is told of a listing, and the lent slice of so many places afterwards.
fn lent_times(listed: Result<Vec<u32>, RefusedOfTwo>, places: usize) -> (RefusedOfTwo, Vec<u32>) {
    let mut after = times_before(places);
    match listed {
        Ok(times) => {
            after[..times.len()].copy_from_slice(&times);
            ((0, times.len() as u64, 0), after)
        }
        Err(refused) => (refused, after),
    }
}

fn list_by_library(items: Items, samples: [&[i32]; 2], places: usize) -> (RefusedOfTwo, Vec<u32>) {
    let mut times = times_before(places);
    (library::record_list(items, samples, &mut times), times)
}

/// A sample at its place; the length is no place.
fn put(samples: &mut [i32], place: usize, x: i32) {
    if place < samples.len() {
        samples[place] = x;
    }
}

/// Both channels, as they are lent.
fn lent(samples: &[Vec<i32>; 2]) -> [&[i32]; 2] {
    [&samples[0], &samples[1]]
}

struct Bench {
    random: Random,
    rows: Rows,
    cases: u64,
    met: BTreeMap<(&'static str, u64), u64>,
    verdicts: BTreeMap<u64, u64>,
}

impl Bench {
    fn same<T: PartialEq + Debug>(&mut self, entry: &'static str, number: u64, asked: &dyn Debug, paper: T, library: T) {
        if paper != library {
            println!("{entry} of {asked:?}:\n  by the paper   {paper:?}\n  by the library {library:?}");
            std::process::exit(1);
        }
        self.cases += 1;
        self.meet(entry, number);
    }

    fn meet(&mut self, entry: &'static str, number: u64) {
        *self.met.entry((entry, number)).or_default() += 1;
    }

    // ---- one comparison for each entry

    fn record_open(&mut self, items: Items, state: &mut Vec<u64>) {
        let answer = if state.len() == RECORD_NUMBERS { paper::open(items) } else { Err((8, 0)) };
        let expected = told(answer, record_numbers, state);
        let (number, carried) = library::record_open(items, state);
        self.same("record_open", number, &items, expected, (number, carried, state.clone()));
    }

    /// Whether the piece was taken.
    fn record_feed(&mut self, state: &mut Vec<u64>, piece: [&[i32]; 2]) -> bool {
        let before = state.clone();
        let expected = match record_in(state).ok_or((8, 0, 0)).and_then(|r| paper::fed(&r, piece)) {
            Ok(r) => ((0, 0, 0), record_numbers(&r)),
            Err(refused) => (refused, before.clone()),
        };
        let told = library::record_feed(state, piece);
        let entry = if told.2 == 2 { FED_ACCELERATION } else { "record_feed" };
        self.same(entry, told.0, &(before, piece), expected, (told, state.clone()));
        told.0 == 0
    }

    fn first_crossing(&mut self, samples: [&[i32]; 2], ramp: u64, levels: [u64; 2]) {
        let none = samples[0].len().min(samples[1].len());
        let place = paper::crossings(samples, ramp, levels).first().copied().unwrap_or(none);
        self.same("first_crossing", 0, &(samples, ramp, levels), place, library::first_crossing(samples, ramp, levels));
    }

    fn record_list(&mut self, items: Items, samples: [&[i32]; 2], places: usize) {
        let expected = lent_times(paper::listed(items, samples, places), places);
        let listed = list_by_library(items, samples, places);
        let (number, _, channel) = listed.0;
        let entry = if channel == 2 { LISTED_ACCELERATION } else { "record_list" };
        self.same(entry, number, &(items, samples, places), expected, listed);
    }

    fn campaign_open(&mut self, standard: u64, state: &mut Vec<u64>) {
        let answer = if state.len() == 5 { paper::open_campaign(standard) } else { Err((8, 0)) };
        let expected = told(answer, campaign_numbers, state);
        let (number, carried) = library::campaign_open(standard, state);
        self.same("campaign_open", number, &standard, expected, (number, carried, state.clone()));
    }

    /// A record ended into an array of any length; and its result, where there is one, entered.
    fn record_end(&mut self, record: &[u64], places: usize, campaign: &[u64]) {
        let before: Vec<u64> = (0..places as u64).map(|k| u64::MAX - k).collect();
        let answer = match record_in(record) {
            Some(r) if places == RESULT_NUMBERS => paper::ended(&r),
            _ => Err((8, 0)),
        };
        let expected = told(answer, |x| x.to_vec(), &before);
        let mut result = before;
        let (number, carried) = library::record_end(record, &mut result);
        self.same("record_end", number, &(record, places), expected, (number, carried, result.clone()));
        if number == 0 {
            self.campaign_enter(&mut campaign.to_vec(), u64::from(result[2] != 0), result[3]);
            self.campaign_enter_result(&mut campaign.to_vec(), &result);
        }
    }

    /// A result entered by its numbers, any of them and of any length.
    fn campaign_enter_result(&mut self, state: &mut Vec<u64>, result: &[u64]) {
        let before = state.clone();
        let answer = match campaign_in(state) {
            Some(c) if result.len() == RESULT_NUMBERS => paper::entered(&c, result[2] != 0, result[3]),
            _ => Err((8, 0)),
        };
        let expected = told(answer, campaign_numbers, state);
        let (number, carried) = library::campaign_enter_result(state, result);
        self.same("campaign_enter_result", number, &(before, result), expected, (number, carried, state.clone()));
    }

    fn campaign_enter(&mut self, state: &mut Vec<u64>, failed: u64, exposure: u64) {
        let before = state.clone();
        let answer = match campaign_in(state) {
            Some(c) if failed <= 1 => paper::entered(&c, failed == 1, exposure),
            _ => Err((8, 0)),
        };
        let expected = told(answer, campaign_numbers, state);
        let (number, carried) = library::campaign_enter(state, failed, exposure);
        self.same("campaign_enter", number, &(before, failed, exposure), expected, (number, carried, state.clone()));
    }

    /// The censored count, the verdict and the rates of one state; rates are compared bit for bit.
    fn campaign_read(&mut self, state: &[u64]) {
        let sound = campaign_in(state).filter(paper::campaign_ok);
        let bits = |rates: &[f64]| rates.iter().map(|r| r.to_bits()).collect::<Vec<u64>>();

        let expected = sound.as_ref().map_or((8, 0), |c| (0, paper::censored(c)));
        let got = library::campaign_censored(state);
        self.same("campaign_censored", got.0, &state, expected, got);

        let mut lent = [-1.5, -2.5];
        let expected = match &sound {
            None => ((8, 0), bits(&lent)),
            Some(c) => {
                let [_, lower, upper] = self.rows.rates(c);
                match self.rows.verdict(c) {
                    Verdict::NoRecord => ((0, 0), bits(&[0.0, 0.0])),
                    Verdict::Accept => ((0, 1), bits(&[0.0, upper])),
                    Verdict::Reject => ((0, 2), bits(&[lower, 0.0])),
                    Verdict::Continue => ((0, 3), bits(&[lower, upper])),
                }
            }
        };
        let got = library::campaign_verdict(state, &mut lent);
        self.same("campaign_verdict", got.0, &state, expected, (got, bits(&lent)));
        if got.0 == 0 {
            *self.verdicts.entry(got.1).or_default() += 1;
        }

        let mut lent = [-1.5, -2.5, -3.5];
        let expected = match &sound {
            None => ((8, 0), bits(&lent)),
            Some(c) => ((0, u64::from(c.records > 0)), bits(&self.rows.rates(c))),
        };
        let got = library::campaign_rates(state, &mut lent);
        self.same("campaign_rates", got.0, &state, expected, (got, bits(&lent)));
    }

    // ---- what is tried

    /// A number in a range, at its ends, just outside them, or anywhere.
    fn item(&mut self, low: u64, high: u64) -> u64 {
        match self.random.within(0, 9) {
            0 => low,
            1 => high,
            2 => low.saturating_sub(1),
            3 => high + 1,
            4 => self.random.next(),
            _ => self.random.within(low, high),
        }
    }

    fn items(&mut self) -> Items {
        [self.item(1, 10_000), self.item(0, 1_000_000), self.item(1, 1_000_000), self.item(0, 10_000_000), self.item(1, 1_000_000)]
    }

    /// Items in range that a short record has something to show for.
    fn lively(&mut self) -> Items {
        let step = self.random.of(&[1, 2, 10, 499, 500, 9_999, 10_000]);
        let ramp = self.random.within(0, 4);
        let levels = [1, 2, 9_810, 40_000, 999_999, 1_000_000];
        let (level, other) = (self.random.of(&levels), self.random.of(&levels));
        let gap = self.random.within(0, 5) * step + self.random.within(0, 2);
        [step, ramp, level, gap, other]
    }

    fn sample(&mut self, level: u64) -> i32 {
        let level = level.min(SAMPLE as u64) as i32;
        let x = match self.random.within(0, 7) {
            0 => 0,
            1 | 2 => level,
            3 | 4 | 5 => (level + 1).min(SAMPLE),
            6 => SAMPLE,
            _ => self.random.within(0, SAMPLE as u64) as i32,
        };
        if self.random.one_in(2) { -x } else { x }
    }

    fn bad_sample(&mut self) -> i32 {
        self.random.of(&[SAMPLE + 1, -SAMPLE - 1, i32::MAX, i32::MIN, 1_500_000])
    }

    /// One that is not above the level.
    fn calm_sample(&mut self, level: u64) -> i32 {
        let level = level.min(SAMPLE as u64);
        let x = if self.random.one_in(2) { level } else { self.random.within(0, level) } as i32;
        if self.random.one_in(2) { -x } else { x }
    }

    /// Samples about the level, at times mostly or all below it.
    fn channel(&mut self, n: usize, level: u64) -> Vec<i32> {
        let lively = self.random.of(&[1, 1, 2, 5, 60, u64::MAX]);
        (0..n).map(|_| if self.random.one_in(lively) { self.sample(level) } else { self.calm_sample(level) }).collect()
    }

    /// Both channels about their levels; one in `odd` pairs has a sample out of range, in either channel or in both at
    /// the same or at neighbouring places, and at times more.
    fn samples(&mut self, n: usize, levels: [u64; 2], odd: u64) -> [Vec<i32>; 2] {
        let mut xs = levels.map(|level| self.channel(n, level));
        while n > 0 && self.random.one_in(odd) {
            let place = self.random.within(1, n as u64);
            let beside = self.random.within(place - 1, place + 1).clamp(1, n as u64);
            match self.random.within(0, 3) {
                0 => xs[0][place as usize - 1] = self.bad_sample(),
                1 => xs[1][place as usize - 1] = self.bad_sample(),
                _ => {
                    xs[0][place as usize - 1] = self.bad_sample();
                    xs[1][beside as usize - 1] = self.bad_sample();
                    self.meet("bad in both", 0);
                }
            }
        }
        xs
    }

    /// The same, but for one in `odd` times, when one of the two slices is cut shorter than the other, or made longer
    /// where there is nothing to cut.
    fn unequal<'a>(&mut self, samples: [&'a [i32]; 2], odd: u64) -> [&'a [i32]; 2] {
        let [roll, acceleration] = samples;
        if !self.random.one_in(odd) {
            return samples;
        }
        let n = roll.len() as u64;
        let other = |b: &mut Bench, xs: &'a [i32]| if n == 0 { &[0][..] } else { &xs[..b.random.within(0, n - 1) as usize] };
        if self.random.one_in(2) { [other(self, roll), acceleration] } else { [roll, other(self, acceleration)] }
    }

    fn openings(&mut self, times: u64) {
        for _ in 0..times {
            let length = if self.random.one_in(5) { self.random.within(0, 16) } else { RECORD_NUMBERS as u64 };
            let mut state: Vec<u64> = (0..length).map(|_| self.random.next()).collect();
            let items = self.items();
            self.record_open(items, &mut state);
            let length = if self.random.one_in(5) { self.random.within(0, 7) } else { 5 };
            let mut state: Vec<u64> = (0..length).map(|_| self.random.next()).collect();
            let standard = self.item(1, 100_000_000_000);
            self.campaign_open(standard, &mut state);
        }
    }

    /// What the two channels do at the samples of a record: which of them makes a crossing, and where one is above just
    /// after the other was.
    fn meet_channels(&mut self, [roll, acceleration]: [&[i32]; 2], ramp: u64, levels: [u64; 2]) {
        let above = |i: usize| paper::each_above(levels, [roll[i], acceleration[i]]);
        for i in 1..roll.len() {
            match (above(i - 1), above(i)) {
                _ if ((i - 1) as u64) < ramp => {}
                ([false, false], [true, false]) => self.meet("by the roll", 0),
                ([false, false], [false, true]) => self.meet("by the acceleration", 0),
                ([false, false], [true, true]) => self.meet("by both at once", 0),
                ([true, false], [false, true]) | ([false, true], [true, false]) => self.meet("handed over", 0),
                _ => {}
            }
        }
    }

    /// Whole records, fed in random cuts, both channels at the same place: every state on the way, and the figures of
    /// the joined lists at the end. Pieces of unequal lengths in between.
    fn records(&mut self, times: u64) {
        for _ in 0..times {
            let items = self.lively();
            let levels = paper::levels(items);
            let mut state = vec![0; RECORD_NUMBERS];
            self.record_open(items, &mut state);
            let most = if self.random.one_in(12) { 300 } else { 40 };
            let length = self.random.within(0, most) as usize;
            let samples = self.samples(length, levels, 12);
            let mut joined = [Vec::new(), Vec::new()];
            let mut from = 0;
            while from < length || self.random.one_in(3) {
                let to = self.random.within(from as u64, length as u64) as usize;
                let piece = [&samples[0][from..to], &samples[1][from..to]];
                let unequal = self.unequal(piece, 15);
                if unequal != piece {
                    self.record_feed(&mut state, unequal);
                }
                if self.record_feed(&mut state, piece) {
                    joined[0].extend_from_slice(piece[0]);
                    joined[1].extend_from_slice(piece[1]);
                }
                from = to;
            }
            let taken = lent(&joined);
            let whole = paper::state_of(items, taken);
            self.same("whole record", 0, &(items, &taken), record_numbers(&whole), state.clone());
            self.first_crossing(taken, items[1], levels);
            self.meet_channels(taken, items[1], levels);
            if whole.crossings <= 10 {
                let places = paper::crossings(taken, items[1], levels);
                let stands: Vec<u64> = places.iter().map(|&i| (i as u64 - items[1]) * items[0]).collect();
                self.same("largest set", 0, &(items, &taken), paper::largest(&stands, items[3]) as u64, state[7]);
                // one group more for each gap that is not less than the time
                let gaps = stands.windows(2).filter(|w| w[1] - w[0] >= items[3]).count();
                let number = if stands.is_empty() { 0 } else { 1 + gaps as u64 };
                self.same("groups", 0, &(items, &taken), (number, true), (state[11], state[11] <= state[7]));
            }
        }
    }

    /// A sound record of any kind, most of them never led to by samples.
    fn sound_record(&mut self) -> Record {
        loop {
            let items = if self.random.one_in(2) { self.lively() } else { self.items() };
            let Ok(mut r) = paper::open(items) else { continue };
            let most = paper::most_samples(items[0], items[1]);
            r.n = match self.random.within(0, 3) {
                0 => most - self.random.within(0, 3.min(most)),
                1 => items[1] + self.random.within(0, 4),
                2 => self.random.within(0, most),
                _ => self.random.within(0, 30),
            };
            if r.n > 0 {
                r.last = paper::levels(items).map(|level| if self.random.one_in(2) { self.sample(level) } else { self.calm_sample(level) });
            }
            if r.n >= items[1] + 2 && r.n <= most && self.random.one_in(2) {
                r.crossings = self.random.within(1, r.n - 1 - items[1]);
                r.largest = self.random.within(1, r.crossings);
                r.groups = self.random.within(1, r.largest);
                r.first = self.random.within(items[1] + 1, r.n - 1);
                r.last_chosen = self.random.within(r.first, r.n - 1);
                r.last_crossing = self.random.within(r.last_chosen, r.n - 1);
            }
            if paper::record_ok(&r) {
                return r;
            }
        }
    }

    fn sound_campaign(&mut self) -> Campaign {
        loop {
            let standard = self.random.of(&[1, 7_200_000, 1_000_000, 100_000_000_000]);
            let Ok(mut c) = paper::open_campaign(standard) else { continue };
            c.records = match self.random.within(0, 5) {
                0 => 0,
                1 => MOST_RECORDS,
                2 => self.random.within(1, 70),
                3 => self.random.within(1, 3),
                _ => self.random.within(1, MOST_RECORDS),
            };
            c.failures = if self.random.one_in(4) { ROWS.min(c.records) } else { self.random.within(0, ROWS.min(c.records)) };
            c.failed = self.random.one_in(2);
            c.exposure = self.random.within(c.records, c.records * LONGEST);
            if self.random.one_in(2) && paper::campaign_ok(&c) {
                c.exposure = self.near_a_line(&c);
            }
            if paper::campaign_ok(&c) {
                return c;
            }
        }
    }

    /// An exposure at, just below or just above one of the verdict's two lines, with a standard that brings the line
    /// near.
    fn near_a_line(&mut self, c: &Campaign) -> u64 {
        let row = if self.random.one_in(2) {
            self.rows.upper[paper::censored(c) as usize]
        } else {
            self.rows.lower[c.failures as usize]
        };
        let line = (u128::from(row) * u128::from(c.standard) / 1_000_000) as u64;
        (line + self.random.within(0, 2)).saturating_sub(1)
    }

    /// One number of a state changed to something near it, to a limit, or to anything; or the array made shorter or
    /// longer.
    fn damaged(&mut self, state: &[u64], place: usize) -> Vec<u64> {
        let mut s = state.to_vec();
        if place == s.len() {
            let length = self.random.within(0, 16) as usize;
            s.resize(length, 1);
            return s;
        }
        let limits = [0, 1, 2, 63, 64, 65, 10_000, 10_001, 100_000, 100_001, 1_000_000, 1_000_001, 2_000_000, 2_000_001, LONGEST, LONGEST + 1];
        s[place] = match self.random.within(0, 5) {
            0 => s[place].wrapping_add(1),
            1 => s[place].wrapping_sub(1),
            2 => self.random.of(&[u64::MAX, 1 << 63, 1 << 32, 100_000_000_000, 100_000_000_001]),
            3 => s[self.random.within(0, s.len() as u64 - 1) as usize],
            4 => self.random.next(),
            _ => self.random.of(&limits),
        };
        s
    }

    /// A sound record, its numbers and those of a sound campaign, and a short piece to feed.
    fn sound_case(&mut self, odd: u64) -> (Record, Vec<u64>, Vec<u64>, [Vec<i32>; 2]) {
        let r = self.sound_record();
        let record = record_numbers(&r);
        let campaign = campaign_numbers(&self.sound_campaign());
        let length = self.random.within(0, 6) as usize;
        let piece = self.samples(length, paper::levels(r.items), odd);
        (r, record, campaign, piece)
    }

    /// Sound states, and the same with each number in turn damaged: fed, ended and entered.
    fn states(&mut self, times: u64) {
        for _ in 0..times {
            let (_, record, campaign, piece) = self.sound_case(8);
            let piece = self.unequal(lent(&piece), 10);
            self.record_feed(&mut record.clone(), piece);
            let places = if self.random.one_in(5) { self.random.within(0, 7) as usize } else { RESULT_NUMBERS };
            self.record_end(&record, places, &campaign);
            for place in 0..=record.len() {
                let mut broken = self.damaged(&record, place);
                self.record_end(&broken, RESULT_NUMBERS, &campaign);
                self.record_feed(&mut broken, piece);
            }
            for place in 0..=campaign.len() {
                let broken = self.damaged(&campaign, place);
                self.record_end(&record, RESULT_NUMBERS, &broken);
            }
        }
    }

    /// The last crossing's place and the groups at each end of what document 02's [5] asks for, and one past it; and
    /// arrays of the lengths of before it.
    fn grouped_states(&mut self, times: u64) {
        for _ in 0..times {
            let (r, record, campaign, piece) = self.sound_case(50);
            for last_crossing in [0, 1, r.first, r.last_chosen.wrapping_sub(1), r.last_chosen, r.last_chosen + 1, r.n.wrapping_sub(1), r.n, r.n + 1] {
                for groups in [0, 1, 2, r.groups, r.largest.wrapping_sub(1), r.largest, r.largest + 1, r.crossings] {
                    let mut state = record.clone();
                    state[10] = last_crossing;
                    state[11] = groups;
                    self.record_end(&state, RESULT_NUMBERS, &campaign);
                    self.record_feed(&mut state, lent(&piece));
                }
            }
            for length in [10, 12, 13, 15] {
                let mut state = record.clone();
                state.resize(length, 0);
                self.record_end(&state, RESULT_NUMBERS, &campaign);
                self.record_feed(&mut state, lent(&piece));
                self.record_open(r.items, &mut state);
            }
            self.record_end(&record, 4, &campaign);
        }
    }

    /// Each level and each last sample alone at the ends of its range and past them, and the last samples of a record
    /// that has none.
    fn two_channel_states(&mut self, times: u64) {
        for _ in 0..times {
            let (r, record, campaign, piece) = self.sound_case(50);
            let piece = self.unequal(lent(&piece), 10);
            let empty = record_numbers(&paper::open(r.items).unwrap());
            for (state, place, values) in [
                (&record, 2, [0, 1, SAMPLE as u64, SAMPLE as u64 + 1, u64::MAX]),
                (&record, 12, [0, 1, SAMPLE as u64, SAMPLE as u64 + 1, u64::MAX]),
                (&record, 5, [0, 1, 1_999_999, 2_000_000, 2_000_001]),
                (&record, 13, [0, 1, 1_999_999, 2_000_000, 2_000_001]),
                (&empty, 5, [0, 1, 2, 1_999_999, 2_000_000]),
                (&empty, 13, [0, 1, 2, 1_999_999, 2_000_000]),
            ] {
                for value in values {
                    let mut state = state.clone();
                    state[place] = value;
                    self.record_end(&state, RESULT_NUMBERS, &campaign);
                    self.record_feed(&mut state, piece);
                }
            }
        }
    }

    /// Campaigns, sound and with each number in turn damaged: entered into and read.
    fn campaigns(&mut self, times: u64) {
        for _ in 0..times {
            let state = campaign_numbers(&self.sound_campaign());
            let failed = self.random.of(&[0, 0, 1, 1, 2, u64::MAX]);
            let exposure = if self.random.one_in(3) { self.random.of(&[0, 1, LONGEST, LONGEST + 1]) } else { self.item(1, LONGEST) };
            self.campaign_read(&state);
            self.campaign_enter(&mut state.clone(), failed, exposure);
            // crossings, count and largest set are anything: only the first failure and the exposure are read
            let mut result = [0, 1, u64::MAX].map(|other| self.random.of(&[other, failed, exposure])).to_vec();
            result.splice(2..2, [failed, exposure]);
            let long = self.random.of(&[4, 5, 5, 5, 5, 6]) as usize;
            result.resize(long, 1);
            self.campaign_enter_result(&mut state.clone(), &result);
            for place in 0..=state.len() {
                let mut broken = self.damaged(&state, place);
                self.campaign_read(&broken);
                self.campaign_enter(&mut broken.clone(), failed, exposure);
                self.campaign_enter_result(&mut broken, &result);
            }
        }
    }

    fn listings(&mut self, times: u64) {
        for _ in 0..times {
            let items = if self.random.one_in(3) { self.items() } else { self.lively() };
            let length = self.random.within(0, 40) as usize;
            let samples = self.samples(length, paper::levels(items), 10);
            let samples = self.unequal(lent(&samples), 15);
            let places = self.random.within(0, 12) as usize;
            self.record_list(items, samples, places);
            let ramp = if self.random.one_in(4) { self.random.next() } else { self.random.within(0, 10) };
            let levels = paper::levels(items).map(|level| if self.random.one_in(4) { self.random.next() } else { level });
            self.first_crossing(samples, ramp, levels);
        }
        for _ in 0..times / 12 {
            let items = [10_000, self.random.within(0, 3), 40_000, self.random.within(0, 50_000), 9_810];
            let most = paper::most_samples(items[0], items[1]) as usize;
            let length = most + self.random.within(0, 2) as usize - 1;
            let samples = self.samples(length, paper::levels(items), 20);
            let samples = self.unequal(lent(&samples), 20);
            let places = self.random.of(&[0, 200, 400]);
            self.record_list(items, samples, places);
        }
        // more times than the library keeps aside on its first pass
        for _ in 0..20 {
            let items = [1, self.random.within(0, 3), 40_000, self.random.within(0, 2), 9_810];
            let length = self.random.within(6_000, 20_000) as usize;
            let samples = self.samples(length, paper::levels(items), 50_000);
            let places = self.random.of(&[0, 2_047, 2_048, 2_049, 20_000]);
            self.record_list(items, lent(&samples), places);
        }
    }

    /// A bad sample, or one just within the range, at the first and the last place of the first, a middle and the last
    /// block of a library that looks at 64 samples at a time, in either channel, in both at once and in both at
    /// neighbouring places; in a piece, in a piece that there is no room for, and in a whole record.
    fn ends(&mut self) {
        let values = [i32::MIN, i32::MIN + 1, -SAMPLE - 1, -SAMPLE, SAMPLE, SAMPLE + 1, i32::MAX];
        for n in [64, 65, 175, 192, 257] {
            for place in [0, 1, 62, 63, 64, 65, 127, 128, n - 1].into_iter().filter(|&place| place < n) {
                let neither = n;
                for [roll, acceleration] in [[place, neither], [neither, place], [place, place], [place, place + 1], [place + 1, place]] {
                    for value in values {
                        let mut samples = [vec![0; n], vec![0; n]];
                        put(&mut samples[0], roll, value);
                        put(&mut samples[1], acceleration, value);
                        self.ends_of(lent(&samples));
                    }
                }
            }
        }
        for level in [0, 999_999, 1_000_000, 1_000_001, i32::MAX as u64 - 1, i32::MAX as u64, i32::MAX as u64 + 1, u64::MAX] {
            for value in values {
                self.first_crossing([&[0, value], &[0, 0]], 0, [level, 0]);
                self.first_crossing([&[0, 0], &[0, value]], 0, [0, level]);
                self.first_crossing([&[0, value], &[0, value]], 0, [level, u64::MAX]);
            }
        }
    }

    fn ends_of(&mut self, samples: [&[i32]; 2]) {
        for (items, step_back) in [([500, 0, 40_000, 0, 9_810], 0), ([500, 3, 1_000_000, 0, 999_999], 0), ([10_000, 0, 40_000, 0, 9_810], 500)] {
            let mut state = vec![0; RECORD_NUMBERS];
            self.record_open(items, &mut state);
            let before: Vec<i32> = vec![0; step_back];
            for _ in 0..step_back / 200 {
                self.record_feed(&mut state, [&before, &before]);
            }
            self.record_feed(&mut state, samples);
            self.record_list(items, samples, 4);
            self.first_crossing(samples, items[1], paper::levels(items));
        }
    }

    /// The roll above its level at one place and the acceleration at another, each at an end of a block of 64 or beside
    /// it, or nowhere; fed whole, cut at either place or between the blocks, listed and searched.
    fn boundaries(&mut self) {
        for n in [64, 65, 129, 192] {
            let places: Vec<usize> = [0, 1, 62, 63, 64, 65, 127, 128, n - 1, n].into_iter().filter(|&place| place <= n).collect();
            for ramp in [0, 62, 64] {
                let items = [500, ramp, 40_000, 1_000, 9_810];
                for &roll in &places {
                    for &acceleration in &places {
                        let mut samples = [vec![40_000; n], vec![-9_810; n]];
                        put(&mut samples[0], roll, -40_001);
                        put(&mut samples[1], acceleration, 9_811);
                        let samples = lent(&samples);
                        for cut in [0, 64, roll, acceleration] {
                            let mut state = vec![0; RECORD_NUMBERS];
                            self.record_open(items, &mut state);
                            self.record_feed(&mut state, samples.map(|channel| &channel[..cut]));
                            self.record_feed(&mut state, samples.map(|channel| &channel[cut..]));
                            self.same("whole record", 0, &(items, samples), record_numbers(&paper::state_of(items, samples)), state);
                        }
                        self.record_list(items, samples, 2);
                        self.first_crossing(samples, ramp, paper::levels(items));
                    }
                }
            }
        }
    }

    /// Jobs of one channel, the roll or the acceleration, with zeros lent for the other and any level for it: what
    /// document 01 says of one channel.
    fn one_channel(&mut self, times: u64) {
        for _ in 0..times {
            let [step, ramp, level, gap, other] = self.lively();
            let (own, length, odd) = match self.random.within(0, 20) {
                // about as long as a record may be
                0 => ([10_000, ramp, level, gap], 1_000 + self.random.within(ramp, ramp + 2), 4),
                _ => ([step, ramp, level, gap], self.random.within(0, 40), 12),
            };
            let xs = &self.samples(length as usize, [level, other], odd)[0];
            let zeros = vec![0; xs.len()];
            let channel = self.random.within(1, 2);
            let [step, ramp, level, gap] = own;
            let (samples, items) =
                if channel == 1 { ([&xs[..], &zeros], [step, ramp, level, gap, other]) } else { ([&zeros[..], xs], [step, ramp, other, gap, level]) };
            let asked = (items, samples, channel);
            let of_two = |(number, carried): Refused| (number, carried, if number == 2 { channel } else { 0 });

            let mut state = vec![0; RECORD_NUMBERS];
            self.record_open(items, &mut state);
            let expected = match single::fed(own, xs) {
                Ok((last, [crossings, largest, first, last_chosen, last_crossing, groups])) => {
                    let [roll, acceleration] = if channel == 1 { [code(last), 0] } else { [0, code(last)] };
                    let mut s = items[..4].to_vec();
                    s.extend([length, roll, crossings, largest, first, last_chosen, last_crossing, groups, items[4], acceleration]);
                    ((0, 0, 0), s)
                }
                Err(refused) => (of_two(refused), state.clone()),
            };
            let told = library::record_feed(&mut state, samples);
            self.same("one channel", 0, &asked, expected, (told, state));

            let places = self.random.within(0, 12) as usize;
            let expected = lent_times(single::listed(own, xs, places).map_err(of_two), places);
            self.same("one channel", 0, &(asked, places), expected, list_by_library(items, samples, places));

            let place = single::crossings(xs, ramp, level).first().copied().unwrap_or(xs.len());
            self.same("one channel", 0, &asked, place, library::first_crossing(samples, ramp, paper::levels(items)));
        }
    }

    /// Document 01's marked cases A to H, with document 02's groups, each sample put into either channel in every way,
    /// zeros into the other: all into the roll, all into the acceleration, and handed to and fro. The figures are the
    /// papers'; `paper` and the library have to have them.
    fn marked(&mut self) {
        const A: &[i32] = &[0, 41_000, 39_000, 41_000, 39_000, 41_000, 0];
        // the ramp, the decorrelation time and the samples; the crossings' times, the largest set, the counted times
        #[rustfmt::skip]
        let cases: [(u64, u64, &[i32], &[u64], u64, &[u32]); 8] = [
            (0, 2_000, A, &[500, 1_500, 2_500], 2, &[500]),
            (0, 2_001, A, &[500, 1_500, 2_500], 1, &[500]),
            (0, 0, A, &[500, 1_500, 2_500], 3, &[500, 1_500, 2_500]),
            (0, 2_000, &[40_000, 40_000], &[], 0, &[]),
            (0, 2_000, &[40_000, 40_001], &[500], 1, &[500]),
            (0, 2_000, &[41_000, 0, -41_000], &[1_000], 1, &[1_000]),
            (0, 2_000, &[0, 41_000, -41_000], &[500], 1, &[500]),
            (2, 2_000, &[0, 41_000, 41_000, 0, 41_000], &[1_000], 1, &[1_000]),
        ];
        for (ramp, gap, xs, crossings, largest, counted) in cases {
            let items = [500, ramp, 40_000, gap, 40_000];
            let n = xs.len();
            for choice in 0..1 << n {
                let mut samples = [vec![0; n], vec![0; n]];
                (0..n).for_each(|i| samples[choice >> i & 1][i] = xs[i]);
                let samples = lent(&samples);
                let times: Vec<u64> = paper::crossings(samples, ramp, paper::levels(items)).iter().map(|&i| (i as u64 - ramp) * 500).collect();
                let whole = paper::state_of(items, samples);
                assert_eq!((&times[..], whole.crossings), (crossings, crossings.len() as u64));
                assert_eq!((whole.largest, whole.groups), (largest, counted.len() as u64));
                assert_eq!(paper::listed(items, samples, 3), Ok(counted.to_vec()));

                let first = crossings.first().map_or(0, |time| time / 500 + ramp);
                let exposure = crossings.first().copied().unwrap_or((n as u64 - 1 - ramp) * 500);
                let (mut state, mut result) = (vec![0; RECORD_NUMBERS], vec![0; RESULT_NUMBERS]);
                self.record_open(items, &mut state);
                self.record_feed(&mut state, samples);
                library::record_end(&state, &mut result);
                let expected = vec![crossings.len() as u64, counted.len() as u64, first, exposure, largest];
                self.same("marked cases", 0, &(items, samples), expected, result);
                self.record_list(items, samples, 3);
            }
        }
        // H's full time, and A without its crossings
        assert_eq!(paper::ended(&paper::state_of([500, 2, 40_000, 0, 40_000], [&[0; 5], &[0; 5]])), Ok([0, 0, 0, 1_000, 0]));
    }

    fn table(&mut self) {
        let outside = [65, 66, 1 << 32, (1 << 32) + 1, u64::MAX];
        for n in (0..=ROWS).chain(outside) {
            let row = |column: &[u64]| column.get(n as usize).copied().unwrap_or(0) as u32;
            let expected = (row(&self.rows.upper), row(&self.rows.lower));
            self.same("rows", 0, &n, expected, (library::upper_row(n), library::lower_row(n)));
        }
    }
}

const USAGE: &str =
    "oracle LIBRARY ROWS [N]: the library that is tried; what the program `rows` writes; one history of bureaus in N";

/// What was linked, to the byte: the run is about the library that it is told of, and no older one nor another tree's.
const LINKED: &[u8] = include_bytes!(concat!(env!("OUT_DIR"), "/libchimenickel.a"));

fn main() {
    let [library, rows] = [1, 2].map(|i| std::env::args().nth(i).expect(USAGE));
    let own = std::fs::read(&library).expect("the library") == LINKED;
    assert!(own, "this program has another library than {library} in it");
    let rows = Rows::read(&std::fs::read_to_string(rows).expect("the rows"));
    let share: usize = std::env::args().nth(3).map_or(1, |n| n.parse().expect("one history in so many"));
    let often = OFTEN / share as u64;
    let mut b = Bench { random: Random::new(1980), rows, cases: 0, met: BTreeMap::new(), verdicts: BTreeMap::new() };
    b.table();
    b.marked();
    b.ends();
    b.boundaries();
    b.openings(10_000);
    b.records(15_000);
    b.one_channel(5_000);
    b.listings(15_000);
    b.states(4_000);
    b.grouped_states(1_500);
    b.two_channel_states(1_000);
    b.campaigns(5_000);
    b.histories(100_000 / share);

    let mut rare = Vec::new();
    for (entry, numbers) in EXPECTED {
        let met: Vec<String> = numbers.iter().map(|&n| format!("{n}: {}", b.met.get(&(entry, n)).unwrap_or(&0))).collect();
        println!("{entry:19} {}", met.join("  "));
        rare.extend(numbers.iter().filter(|&&n| *b.met.get(&(entry, n)).unwrap_or(&0) < often).map(|n| format!("{entry} {n}")));
    }
    for entry in BESIDE.into_iter().chain(["rows"]) {
        let met = *b.met.get(&(entry, 0)).unwrap_or(&0);
        println!("{entry:19} {met}");
        if met < often && entry != "rows" {
            rare.push(entry.to_string());
        }
    }
    for (case, name) in ["no record", "accept", "reject", "continue"].iter().enumerate() {
        let met = *b.verdicts.get(&(case as u64)).unwrap_or(&0);
        println!("verdict {name:10} {met}");
        if met < often {
            rare.push(format!("verdict {name}"));
        }
    }
    if !rare.is_empty() {
        println!("hardly met: {}", rare.join(", "));
        std::process::exit(1);
    }
    println!("{} cases agree", b.cases);
}
