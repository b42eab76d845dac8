//! The rate beyond the records: the mean time between failures at a level that no record need reach, from envelope peaks.

use crate::{answer, c, Refusal, Tail};

/// The letter for a standard.
#[derive(Clone, Copy, Debug, PartialEq, Eq)]
pub enum Letter {
    Accept,
    Reject,
    Continue,
}

/// What extrapolation comes to, in ms.
#[derive(Clone, Debug, PartialEq, Eq)]
pub struct Beyond {
    /// At most the estimated mean time between failures at the level.
    pub estimate: u64,
    /// The longest standard found to be accepted.
    pub accepted: Option<u64>,
    /// The shortest standard found to be rejected.
    pub rejected: Option<u64>,
    /// The letter for the standard that was asked.
    pub letter: Letter,
    /// The tail that it was found from.
    pub tail: Tail,
}

fn ask(peaks: &[u32], k: u64, items: [u64; 4], times: &mut [u64; 3]) -> Result<u64, Refusal> {
    let [level, step, samples, standard] = items;
    answer(|carried| unsafe {
        c::chim_extrapolate(
            peaks.as_ptr(),
            peaks.len(),
            k,
            level,
            step,
            samples,
            standard,
            times.as_mut_ptr(),
            times.len(),
            carried,
        )
    })
}

/// From up to 4,096 envelope peaks in any order: by the k largest of them, a level in thousandths of a degree, the step
/// in ms, the timed samples of all records and a standard in ms. Refuses 1 with item 1, 3 or 5, 16, 17, 19, 20 with the
/// k-th peak, 21, in this order.
pub fn extrapolate(peaks: &[u32], k: u64, level: u64, step: u64, samples: u64, standard: u64) -> Result<Beyond, Refusal> {
    let items = [level, step, samples, standard];
    let mut times = [0; 3];
    // without a peak 1 is given where it is due, and else 16; the place that 17 names is that of the list handed over
    if let Err(refusal @ Refusal::Item(_)) = ask(&[], 0, items, &mut times) {
        return Err(refusal);
    }
    let tail = Tail::fit(peaks, k)?;
    let letter = match ask(&tail.sorted, k, items, &mut times)? {
        1 => Letter::Accept,
        2 => Letter::Reject,
        _ => Letter::Continue,
    };
    let some = |time: u64| Some(time).filter(|&time| time != 0);
    Ok(Beyond { estimate: times[0], accepted: some(times[1]), rejected: some(times[2]), letter, tail })
}

#[cfg(test)]
mod tests {
    use super::*;

    const PEAKS: [u32; 12] =
        [31_000, 34_000, 33_000, 32_000, 31_500, 30_500, 30_000, 29_500, 29_000, 28_500, 28_000, 27_500];

    #[test]
    fn times_and_letters() {
        let found = extrapolate(&PEAKS, 10, 40_000, 500, 1_000_000, 7_200_000).unwrap();
        assert_eq!((found.estimate, found.accepted, found.rejected), (3_569_418_850, Some(356_906_209), None));
        assert_eq!((found.letter, found.tail), (Letter::Accept, Tail::fit(&PEAKS, 10).unwrap()));
        let letters = [
            (29_289_438, Letter::Accept),
            (29_289_439, Letter::Continue),
            (170_706_725, Letter::Continue),
            (170_706_726, Letter::Reject),
        ];
        for (standard, letter) in letters {
            let found = extrapolate(&PEAKS, 10, 28_500, 500, 1_000_000, standard).unwrap();
            assert_eq!((found.estimate, found.accepted, found.rejected), (50_000_000, Some(29_289_438), Some(170_706_726)));
            assert_eq!(found.letter, letter);
        }
    }

    #[test]
    fn refusals_in_order() {
        assert_eq!(extrapolate(&[], 0, 0, 0, 0, 0), Err(Refusal::Item(1)));
        assert_eq!(extrapolate(&[], 0, 1_000_001, 1, 0, 0), Err(Refusal::Item(3)));
        assert_eq!(extrapolate(&[0], 0, 40_000, 1, 0, 0), Err(Refusal::Item(5)));
        assert_eq!(extrapolate(&PEAKS, 13, 40_000, 500, 0, 1), Err(Refusal::Tail));
        assert_eq!(extrapolate(&[1, 0, 2], 2, 40_000, 500, 0, 1), Err(Refusal::Peak(1)));
        assert_eq!(extrapolate(&PEAKS, 10, 20_000, 500, 9, 1), Err(Refusal::TimedSamples));
        assert_eq!(extrapolate(&PEAKS, 10, 28_499, 500, 10, 1), Err(Refusal::LowLevel(28_500)));
        assert_eq!(extrapolate(&[35_000; 40], 10, 40_000, 500, 1_000_000, 1), Err(Refusal::NoSpread));
        let numbers = [Refusal::TimedSamples, Refusal::LowLevel(1), Refusal::NoSpread].map(Refusal::number);
        assert_eq!(numbers, [19, 20, 21]);
    }
}
