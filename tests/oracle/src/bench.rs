// Document 02, [9], read once more: two bureaus at one table. Here each bureau has a desk of its own that knows nothing
// of the other; of the shared table there is only which job stands in which place. Every answer of the library is that
// of the caller's own desk, the place number aside, which is the lowest that is free; and the whole table afterwards is
// that of both desks.
use crate::library;
use crate::paper::{self, Campaign, Verdict, LONGEST, MOST_RECORDS, ROWS};
use crate::{campaign_in, campaign_numbers, Bench};

pub const PLACES: usize = 32;
const MOST_JOBS: usize = 16;

pub type Row = [u64; 6];

/// What a bureau asks for.
#[derive(Clone, Copy, Debug)]
enum Ask {
    Take(u64),
    Enter(u64, u64),
    Judge,
    Rate,
    GiveBack,
}

impl Ask {
    fn entry(self) -> &'static str {
        match self {
            Ask::Take(_) => "bench_take",
            Ask::Enter(..) => "bench_enter",
            Ask::Judge => "bench_verdict",
            Ask::Rate => "bench_rates",
            Ask::GiveBack => "bench_give_back",
        }
    }
}

/// A job of a bureau in a place, and the two desks.
struct Shared {
    places: [Option<(usize, usize)>; PLACES],
    desks: [Vec<Option<Campaign>>; 2],
}

fn row(owner: u64, c: &Campaign) -> Row {
    let n = campaign_numbers(c);
    [owner, n[0], n[1], n[2], n[3], n[4]]
}

/// "or free and all zeros", "owned by bureau 1 or 2", "at most 16 each", 32 long; a campaign keeps document 01's
/// relations.
fn table_ok(rows: &[Row]) -> bool {
    let place_ok = |r: &Row| match r[0] {
        0 => *r == [0; 6],
        1 | 2 => campaign_in(&r[1..]).is_some_and(|c| paper::campaign_ok(&c)),
        _ => false,
    };
    let jobs = |b: u64| rows.iter().filter(|r| r[0] == b).count();
    rows.len() == PLACES && rows.iter().all(place_ok) && jobs(1) <= MOST_JOBS && jobs(2) <= MOST_JOBS
}

impl Shared {
    fn rows(&self) -> Vec<Row> {
        let of = |p: &Option<(usize, usize)>| p.map_or([0; 6], |(b, j)| row(b as u64 + 1, self.desks[b][j].as_ref().unwrap()));
        self.places.iter().map(of).collect()
    }

    fn in_hand(&self, b: usize) -> usize {
        self.desks[b].iter().flatten().count()
    }
}

impl Bench {
    fn campaign_for_a_place(&mut self) -> Campaign {
        let standard = self.random.within(1, 100_000_000_000);
        let records = match self.random.within(0, 5) {
            0 => MOST_RECORDS,
            1 => 0,
            _ => self.random.within(1, 200),
        };
        let failures = if self.random.one_in(4) { ROWS.min(records) } else { self.random.within(0, records.min(ROWS)) };
        let failed = failures == ROWS || failures == records && records > 0 || failures > 0 && self.random.one_in(2);
        let c = Campaign { standard, records, failures, exposure: records * self.random.within(1, LONGEST), failed };
        assert!(paper::campaign_ok(&c));
        c
    }

    /// A call of bureau `bureau` about a place, or about none where it takes a job; what the library answers and
    /// leaves, against the desks.
    fn bench_call(&mut self, shared: &mut Shared, rows: &mut Vec<Row>, bureau: u64, place: u64, ask: Ask) {
        let before = rows.clone();
        let bits = |rates: &[f64]| rates.iter().map(|r| r.to_bits()).collect::<Vec<u64>>();
        let mut lent = [-1.5, -2.5, -3.5];
        let mut expected = ((0, 0), bits(&lent));
        let owner = |s: &Shared| s.places.get(place as usize).copied().flatten().filter(|&(b, _)| b as u64 + 1 == bureau);
        let refused = |number: u64, carried: u64| ((number, carried), bits(&[-1.5, -2.5, -3.5]));
        let entry = ask.entry();
        if bureau != 1 && bureau != 2 {
            expected = refused(13, 0);
        } else if let Ask::Take(standard) = ask {
            let b = bureau as usize - 1;
            if shared.in_hand(b) >= MOST_JOBS {
                expected = refused(14, 0);
            } else {
                match paper::open_campaign(standard) {
                    Err((number, carried)) => expected = refused(number, carried),
                    Ok(c) => {
                        let lowest = shared.places.iter().position(Option::is_none).expect("a place for a bureau under 16 jobs");
                        shared.desks[b].push(Some(c));
                        shared.places[lowest] = Some((b, shared.desks[b].len() - 1));
                        expected.0 .1 = lowest as u64;
                    }
                }
            }
        } else if place >= PLACES as u64 || owner(shared).is_none() {
            expected = refused(15, 0);
        } else {
            let (b, j) = owner(shared).unwrap();
            let job = shared.desks[b][j].clone().unwrap();
            match ask {
                Ask::Take(_) => unreachable!(),
                Ask::Enter(failed, exposure) => {
                    let answer = if failed <= 1 { paper::entered(&job, failed == 1, exposure) } else { Err((8, 0)) };
                    match answer {
                        Ok(c) => shared.desks[b][j] = Some(c),
                        Err((number, carried)) => expected = refused(number, carried),
                    }
                }
                Ask::Judge => {
                    let [_, lower, upper] = self.rows.rates(&job);
                    let (case, told) = match self.rows.verdict(&job) {
                        Verdict::NoRecord => (0, [0.0, 0.0]),
                        Verdict::Accept => (1, [0.0, upper]),
                        Verdict::Reject => (2, [lower, 0.0]),
                        Verdict::Continue => (3, [lower, upper]),
                    };
                    expected = ((0, case), bits(&[-1.5, told[0], told[1]]));
                }
                Ask::Rate => expected = ((0, u64::from(job.records > 0)), bits(&self.rows.rates(&job))),
                Ask::GiveBack => {
                    shared.desks[b][j] = None;
                    shared.places[place as usize] = None;
                }
            }
        }
        let told = library_call(rows, bureau, place, ask, &mut lent);
        self.same(entry, told.0, &(before, bureau, place, ask), (expected, shared.rows()), ((told, bits(&lent)), rows.clone()));
    }

    /// Any call on a table that breaks a relation is 8 and leaves it.
    fn broken_table(&mut self, rows: &[Row]) {
        let mut broken = rows.to_vec();
        match self.random.within(0, 7) {
            0 => broken.truncate(self.random.of(&[0, 1, 16, 31])),
            1 => broken.push(if self.random.one_in(2) { [0; 6] } else { broken[0] }),
            2 => broken.iter_mut().for_each(|r| *r = [1, 7_200_000, 0, 0, 0, 0]),
            _ => {
                let i = self.random.within(0, 31) as usize;
                let k = self.random.within(0, 5) as usize;
                broken[i][k] = match self.random.within(0, 4) {
                    0 => self.random.next(),
                    1 => broken[i][k].wrapping_sub(1),
                    2 => 0,
                    3 => 3,
                    _ => broken[i][k] + 1,
                };
            }
        }
        if table_ok(&broken) {
            return;
        }
        let bureau = self.random.of(&[0, 1, 2, 3]);
        let place = self.random.of(&[0, 1, 31, 32]);
        let ask = self.any_ask();
        let entry = ask.entry();
        let before = broken.clone();
        let mut lent = [-1.5, -2.5, -3.5];
        let told = library_call(&mut broken, bureau, place, ask, &mut lent);
        self.same(entry, told.0, &(&before, bureau, place, ask), ((8, 0), [-1.5, -2.5, -3.5], before.clone()), (told, lent, broken));
    }

    fn any_ask(&mut self) -> Ask {
        match self.random.within(0, 9) {
            0..=2 => Ask::Take(if self.random.one_in(8) { self.random.of(&[0, 100_000_000_001, u64::MAX]) } else { self.random.within(1, 100_000_000_000) }),
            3..=5 => {
                let failed = if self.random.one_in(12) { self.random.within(2, 3) } else { self.random.within(0, 1) };
                let exposure = if self.random.one_in(8) { self.random.of(&[0, LONGEST + 1, u64::MAX]) } else { self.random.within(1, LONGEST) };
                Ask::Enter(failed, exposure)
            }
            6 => Ask::Judge,
            7 => Ask::Rate,
            _ => Ask::GiveBack,
        }
    }

    /// Histories of both bureaus from a table that has some jobs already: calls about own places, the other's, free
    /// ones and none; broken tables in between.
    pub fn histories(&mut self, many: usize) {
        for _ in 0..many {
            let mut shared = Shared { places: [None; PLACES], desks: [Vec::new(), Vec::new()] };
            let full = self.random.within(0, 3);
            for place in 0..PLACES {
                if self.random.within(0, 3) < full {
                    let b = self.random.within(0, 1) as usize;
                    if shared.in_hand(b) < MOST_JOBS {
                        let c = self.campaign_for_a_place();
                        shared.desks[b].push(Some(c));
                        shared.places[place] = Some((b, shared.desks[b].len() - 1));
                    }
                }
            }
            let mut rows = shared.rows();
            assert!(table_ok(&rows));
            for _ in 0..self.random.within(4, 20) {
                let bureau = if self.random.one_in(16) { self.random.of(&[0, 3, u64::MAX]) } else { self.random.within(1, 2) };
                let own: Vec<u64> = (0..PLACES as u64).filter(|&i| rows[i as usize][0] == bureau).collect();
                let place = match self.random.within(0, 9) {
                    0 => self.random.of(&[32, 33, u64::MAX]),
                    1 | 2 => self.random.within(0, 31),
                    _ if own.is_empty() => self.random.within(0, 31),
                    _ => self.random.of(&own),
                };
                let ask = self.any_ask();
                self.bench_call(&mut shared, &mut rows, bureau, place, ask);
                if self.random.one_in(8) {
                    self.broken_table(&rows);
                }
            }
        }
    }
}

fn library_call(rows: &mut [Row], bureau: u64, place: u64, ask: Ask, lent: &mut [f64; 3]) -> library::Told {
    match ask {
        Ask::Take(standard) => library::bench_take(rows, bureau, standard),
        Ask::Enter(failed, exposure) => library::bench_enter(rows, bureau, place, failed, exposure),
        Ask::Judge => library::bench_verdict(rows, bureau, place, lent),
        Ask::Rate => library::bench_rates(rows, bureau, place, lent),
        Ask::GiveBack => library::bench_give_back(rows, bureau, place),
    }
}
