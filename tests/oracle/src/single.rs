// Document 01's reading of a record as it stood before document 02's [8]: one channel and one level, for jobs of one
// channel, which lend zeros for the other. Nothing here knows of two; what is said of crossings by their places alone
// (groups, the walk) is `paper`'s.
use crate::paper::{apart, groups, most_samples, Refused, SAMPLE};

fn above(level: u64, x: i32) -> bool {
    u64::from(x.unsigned_abs()) > level
}

pub fn crossings(samples: &[i32], ramp: u64, level: u64) -> Vec<usize> {
    let timed_and_below = |i: usize| i as u64 >= ramp && !above(level, samples[i]);
    (1..samples.len()).filter(|&i| timed_and_below(i - 1) && above(level, samples[i])).collect()
}

/// Refusals 2 and 3 of the whole record as one piece.
fn taken([step, ramp, ..]: [u64; 4], samples: &[i32]) -> Result<(), Refused> {
    if let Some(place) = samples.iter().position(|x| !(-SAMPLE..=SAMPLE).contains(x)) {
        return Err((2, place as u64));
    }
    if samples.len() as u64 > most_samples(step, ramp) {
        return Err((3, 0));
    }
    Ok(())
}

/// The whole record fed as one piece: the last sample, and a record's figures in the header's order.
pub fn fed(items: [u64; 4], samples: &[i32]) -> Result<(i32, [u64; 6]), Refused> {
    taken(items, samples)?;
    let [step, ramp, level, decorrelation] = items;
    let places = crossings(samples, ramp, level);
    let kept = apart(&places, step, ramp, decorrelation);
    let place = |i: Option<&usize>| i.map_or(0, |&i| i as u64);
    let groups = groups(&places, step, ramp, decorrelation).len() as u64;
    let figures =
        [places.len() as u64, kept.len() as u64, place(places.first()), place(kept.last()), place(places.last()), groups];
    Ok((samples.last().copied().unwrap_or(0), figures))
}

/// The counted times, for a slice of so many places; items are within their ranges.
pub fn listed(items: [u64; 4], samples: &[i32], room: usize) -> Result<Vec<u32>, Refused> {
    taken(items, samples)?;
    let [step, ramp, level, decorrelation] = items;
    if (samples.len() as u64) < ramp + 2 {
        return Err((4, 0));
    }
    let groups = groups(&crossings(samples, ramp, level), step, ramp, decorrelation);
    if groups.len() > room {
        return Err((7, groups.len() as u64));
    }
    Ok(groups.iter().map(|group| ((group[0] as u64 - ramp) * step) as u32).collect())
}
