//! The envelope peaks of a record that comes in pieces and is not held: two passes over its samples.

use crate::{answer, c, Peak, Refusal};
#[cfg(feature = "std")]
use std::{vec, vec::Vec};

/// The first pass: how many peaks there are, and their sum. Samples are fed from the first one on, the ramp's too, cut
/// anywhere.
///
/// ```
/// # #[cfg(feature = "std")] {
/// use chimenickel::{envelope_peaks, PeakSurvey};
///
/// let roll = [9, 0, 3, 5, 0, 5, -2, -7, 0, -7, 1, -9, 8, -1, 9, -9, 1, -8, 2];
/// let mut survey = PeakSurvey::open(500, 1).unwrap();
/// for piece in roll.chunks(4) {
///     survey.feed(piece).unwrap();
/// }
/// let mut second = survey.begin(1_499).unwrap();
/// let mut peaks = Vec::new();
/// for piece in roll.chunks(7) {
///     peaks.extend(second.feed(piece).unwrap());
/// }
/// peaks.extend(second.last().unwrap());
/// assert_eq!(Ok(peaks), envelope_peaks(500, 1, 1_499, &roll));
/// # }
/// ```
#[derive(Clone, Debug, PartialEq, Eq)]
pub struct PeakSurvey {
    numbers: [u64; 10],
}

impl PeakSurvey {
    /// No samples yet, at this step in ms (item 1, 1 to 10,000) and with this ramp in samples (item 2, 0 to 1,000,000).
    pub fn open(step: u64, ramp: u64) -> Result<PeakSurvey, Refusal> {
        let mut s = [0; 10];
        answer(|carried| unsafe { c::chim_peaks_survey(step, ramp, s.as_mut_ptr(), s.len(), carried) })?;
        Ok(PeakSurvey { numbers: s })
    }

    /// The next piece. Refuses 8, 2, 3.
    pub fn feed(&mut self, samples: &[i32]) -> Result<(), Refusal> {
        let s = &mut self.numbers;
        answer(|carried| unsafe {
            c::chim_peaks_take(s.as_mut_ptr(), s.len(), samples.as_ptr(), samples.len(), carried)
        })?;
        Ok(())
    }

    /// The second pass over the same samples, for a decorrelation time in ms (item 4, 0 to 10,000,000). The first stays
    /// as it is and serves other times too. Refuses 8, 1 with item 4, 4.
    pub fn begin(&self, decorrelation: u64) -> Result<PeakPass, Refusal> {
        let (survey, mut s) = (&self.numbers, [0; 24]);
        answer(|carried| unsafe {
            c::chim_peaks_begin(survey.as_ptr(), survey.len(), decorrelation, s.as_mut_ptr(), s.len(), carried)
        })?;
        Ok(PeakPass { numbers: s })
    }

    /// The state, to be stored.
    pub fn numbers(&self) -> &[u64; 10] {
        &self.numbers
    }

    /// A stored state; numbers that are no state are refused at their first use.
    pub fn from_numbers(numbers: [u64; 10]) -> PeakSurvey {
        PeakSurvey { numbers }
    }
}

/// The second pass, which [`PeakSurvey::begin`] starts: fed the same samples, however they are cut now, it hands out
/// the peaks that `envelope_peaks` finds in the whole record.
#[derive(Clone, Debug, PartialEq, Eq)]
pub struct PeakPass {
    numbers: [u64; 24],
}

impl PeakPass {
    /// The next piece: the peaks that it settled, in order, magnitudes from the start of `sizes` and times from the
    /// start of `times`, whose other places stay; answers their number. Refuses 8, 2, 3, 7 if either has fewer places
    /// than the piece has samples after the ramp.
    pub fn feed_into(&mut self, samples: &[i32], sizes: &mut [u32], times: &mut [u32]) -> Result<usize, Refusal> {
        let s = &mut self.numbers;
        let k = answer(|carried| unsafe {
            c::chim_peaks_hand_over(
                s.as_mut_ptr(),
                s.len(),
                samples.as_ptr(),
                samples.len(),
                sizes.as_mut_ptr(),
                sizes.len(),
                times.as_mut_ptr(),
                times.len(),
                carried,
            )
        })?;
        Ok(k as usize)
    }

    /// The next piece: the peaks that it settled, in order of time. Refuses 8, 2, 3.
    #[cfg(feature = "std")]
    pub fn feed(&mut self, samples: &[i32]) -> Result<Vec<Peak>, Refusal> {
        let (mut sizes, mut times) = (vec![0; samples.len()], vec![0; samples.len()]);
        let k = self.feed_into(samples, &mut sizes, &mut times)?;
        Ok(sizes.iter().zip(&times).take(k).map(|(&size, &time)| Peak { size, time }).collect())
    }

    /// After the last piece: the peak that the record's end settles. The pass stays as it is.
    pub fn last(&self) -> Result<Option<Peak>, Refusal> {
        let (s, mut size, mut time) = (&self.numbers, 0, 0);
        let found = answer(|carried| unsafe {
            c::chim_peaks_last(s.as_ptr(), s.len(), &mut size, &mut time, carried)
        })?;
        Ok((found == 1).then_some(Peak { size, time }))
    }

    /// The state, to be stored.
    pub fn numbers(&self) -> &[u64; 24] {
        &self.numbers
    }

    /// A stored state; numbers that are no state are refused at their first use.
    pub fn from_numbers(numbers: [u64; 24]) -> PeakPass {
        PeakPass { numbers }
    }
}

#[cfg(all(test, feature = "std"))]
mod tests {
    use super::*;
    use crate::envelope_peaks;

    const ROLL: [i32; 19] = [9, 0, 3, 5, 0, 5, -2, -7, 0, -7, 1, -9, 8, -1, 9, -9, 1, -8, 2];

    #[test]
    fn a_record_cut_anywhere_has_its_peaks() {
        for cut in 0..=ROLL.len() {
            let mut survey = PeakSurvey::open(500, 1).unwrap();
            survey.feed(&ROLL[..cut]).unwrap();
            survey.feed(&ROLL[cut..]).unwrap();
            assert_eq!(PeakSurvey::from_numbers(*survey.numbers()), survey);
            for decorrelation in [1_499, 1_500] {
                let mut second = survey.begin(decorrelation).unwrap();
                let mut found = second.feed(&ROLL[..cut / 2]).unwrap();
                second = PeakPass::from_numbers(*second.numbers());
                found.extend(second.feed(&ROLL[cut / 2..]).unwrap());
                found.extend(second.last().unwrap());
                assert_eq!(Ok(found), envelope_peaks(500, 1, decorrelation, &ROLL));
            }
        }
    }

    #[test]
    fn a_refusal_changes_nothing() {
        assert_eq!(PeakSurvey::open(0, 0), Err(Refusal::Item(1)));
        assert_eq!(PeakSurvey::open(500, 1_000_001), Err(Refusal::Item(2)));
        let mut survey = PeakSurvey::open(500, 1).unwrap();
        survey.feed(&ROLL).unwrap();
        let before = survey.clone();
        assert_eq!(survey.feed(&[0, -1_000_001]), Err(Refusal::Sample(1)));
        assert_eq!(survey.feed(&[0; 20_001]), Err(Refusal::TooLong));
        assert_eq!(survey, before);
        assert_eq!(survey.begin(10_000_001), Err(Refusal::Item(4)));
        assert_eq!(PeakSurvey::open(500, 0).unwrap().begin(0), Err(Refusal::TooShort));
        let mut second = survey.begin(0).unwrap();
        let (mut sizes, mut times) = ([7; 18], [8; 17]);
        assert_eq!(second.feed_into(&ROLL, &mut sizes, &mut times), Err(Refusal::Room(18)));
        assert_eq!((second.clone(), sizes, times), (survey.begin(0).unwrap(), [7; 18], [8; 17]));
        assert_eq!(PeakSurvey::from_numbers([1; 10]).feed(&[]), Err(Refusal::BrokenState));
        assert_eq!(PeakPass::from_numbers([0; 24]).last(), Err(Refusal::BrokenState));
    }
}
