//! The same jobs as bench/plain.c in plain safe Rust: one pass each over both channels. Compiled apart from the
//! callers, as the C is.

fn bad(x: i32) -> bool {
    !(-1_000_000..=1_000_000).contains(&x)
}

fn above(x: i32, level: u64, y: i32, acceleration_level: u64) -> bool {
    u64::from(x.unsigned_abs()) > level || u64::from(y.unsigned_abs()) > acceleration_level
}

/// Hands each crossing's place on, in order; answers whether all samples are in range, and stops at the first that is
/// not.
fn each_crossing(items: &Items, roll: &[i32], acceleration: &[i32], mut met: impl FnMut(u64)) -> bool {
    let mut before = false;
    for (i, (&x, &y)) in roll.iter().zip(acceleration).enumerate() {
        if bad(x) || bad(y) {
            return false;
        }
        let now = above(x, items.level, y, items.acceleration_level);
        if i as u64 > items.ramp && !before && now {
            met(i as u64);
        }
        before = now;
    }
    true
}

/// Groups, and the largest set; nothing for a bad sample.
fn feed(items: &Items, roll: &[i32], acceleration: &[i32]) -> Option<(u64, u64)> {
    let (mut groups, mut last_crossing, mut largest, mut last_chosen) = (0, 0, 0, 0);
    let good = each_crossing(items, roll, acceleration, |i| {
        if largest == 0 || (i - last_chosen) * items.step >= items.decorrelation {
            largest += 1;
            last_chosen = i;
        }
        if groups == 0 || (i - last_crossing) * items.step >= items.decorrelation {
            groups += 1;
        }
        last_crossing = i;
    });
    good.then_some((groups, largest))
}

/// The number of counted times, those for which there is a place written; nothing for a bad sample.
fn list(items: &Items, roll: &[i32], acceleration: &[i32], times: &mut [u32]) -> Option<u64> {
    let (mut counted, mut last_crossing) = (0, 0);
    let good = each_crossing(items, roll, acceleration, |i| {
        if counted == 0 || (i - last_crossing) * items.step >= items.decorrelation {
            if let Some(place) = times.get_mut(counted) {
                *place = ((i - items.ramp) * items.step) as u32;
            }
            counted += 1;
        }
        last_crossing = i;
    });
    good.then_some(counted as u64)
}

/// What a record is counted by.
#[repr(C)]
pub struct Items {
    step: u64,
    ramp: u64,
    level: u64,
    decorrelation: u64,
    acceleration_level: u64,
}

/// # Safety
/// Both channels have n samples.
#[no_mangle]
pub unsafe extern "C" fn rust_feed(items: &Items, roll: *const i32, acceleration: *const i32, n: usize, largest_set: &mut u64) -> u64 {
    match feed(items, std::slice::from_raw_parts(roll, n), std::slice::from_raw_parts(acceleration, n)) {
        Some((groups, largest)) => {
            *largest_set = largest;
            groups
        }
        None => u64::MAX,
    }
}

/// # Safety
/// Both channels have n samples, and `times` has so many places.
#[no_mangle]
pub unsafe extern "C" fn rust_list(items: &Items, roll: *const i32, acceleration: *const i32, n: usize, times: *mut u32, places: usize) -> u64 {
    let (roll, acceleration) = (std::slice::from_raw_parts(roll, n), std::slice::from_raw_parts(acceleration, n));
    list(items, roll, acceleration, std::slice::from_raw_parts_mut(times, places)).unwrap_or(u64::MAX)
}
