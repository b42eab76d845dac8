// The library's functions, called as C calls them (include/chimenickel.h), and what each leaves.

mod c {
    extern "C" {
        #[rustfmt::skip]
        pub fn chim_record_open(step: u64, ramp: u64, level: u64, decorrelation: u64, acceleration_level: u64, state: *mut u64, state_len: usize, carried: *mut u64) -> u64;
        #[rustfmt::skip]
        pub fn chim_record_feed(state: *mut u64, state_len: usize, roll: *const i32, roll_len: usize, acceleration: *const i32, acceleration_len: usize, carried: *mut u64, channel: *mut u64) -> u64;
        #[rustfmt::skip]
        pub fn chim_record_first_crossing(roll: *const i32, roll_len: usize, acceleration: *const i32, acceleration_len: usize, ramp: u64, level: u64, acceleration_level: u64) -> usize;
        #[rustfmt::skip]
        pub fn chim_record_list(step: u64, ramp: u64, level: u64, decorrelation: u64, acceleration_level: u64, roll: *const i32, roll_len: usize, acceleration: *const i32, acceleration_len: usize, times: *mut u32, times_len: usize, carried: *mut u64, channel: *mut u64) -> u64;
        pub fn chim_campaign_open(standard: u64, state: *mut u64, state_len: usize, carried: *mut u64) -> u64;
        pub fn chim_record_end(state: *const u64, state_len: usize, result: *mut u64, result_len: usize, carried: *mut u64) -> u64;
        pub fn chim_campaign_enter(state: *mut u64, state_len: usize, failed: u64, exposure: u64, carried: *mut u64) -> u64;
        #[rustfmt::skip]
        pub fn chim_campaign_enter_result(state: *mut u64, state_len: usize, result: *const u64, result_len: usize, carried: *mut u64) -> u64;
        pub fn chim_campaign_censored(state: *const u64, state_len: usize, carried: *mut u64) -> u64;
        pub fn chim_campaign_verdict(state: *const u64, state_len: usize, lower: *mut f64, upper: *mut f64, carried: *mut u64) -> u64;
        pub fn chim_campaign_rates(state: *const u64, state_len: usize, estimate: *mut f64, lower: *mut f64, upper: *mut f64, carried: *mut u64) -> u64;
        pub fn chim_bench_take(table: *mut [u64; 6], table_len: usize, bureau: u64, standard: u64, carried: *mut u64) -> u64;
        #[rustfmt::skip]
        pub fn chim_bench_enter(table: *mut [u64; 6], table_len: usize, bureau: u64, place: u64, failed: u64, exposure: u64, carried: *mut u64) -> u64;
        #[rustfmt::skip]
        pub fn chim_bench_verdict(table: *mut [u64; 6], table_len: usize, bureau: u64, place: u64, lower: *mut f64, upper: *mut f64, carried: *mut u64) -> u64;
        #[rustfmt::skip]
        pub fn chim_bench_rates(table: *mut [u64; 6], table_len: usize, bureau: u64, place: u64, estimate: *mut f64, lower: *mut f64, upper: *mut f64, carried: *mut u64) -> u64;
        pub fn chim_bench_give_back(table: *mut [u64; 6], table_len: usize, bureau: u64, place: u64, carried: *mut u64) -> u64;
        pub fn chim_upper_row(n: u64) -> u32;
        pub fn chim_lower_row(n: u64) -> u32;
    }
}

/// What stands in `carried` and `channel` before a call: every call has to write over it.
const UNTOUCHED: u64 = 0xdead_beef_dead_beef;

/// The number answered and what it carries.
pub type Told = (u64, u64);

fn told(call: impl FnOnce(*mut u64) -> u64) -> Told {
    let mut carried = UNTOUCHED;
    let number = call(&mut carried);
    (number, carried)
}

/// The same, and the channel that is told.
pub type ToldOfTwo = (u64, u64, u64);

fn told_of_two(call: impl FnOnce(*mut u64, *mut u64) -> u64) -> ToldOfTwo {
    let mut channel = UNTOUCHED;
    let (number, carried) = told(|carried| call(carried, &mut channel));
    (number, carried, channel)
}

pub fn record_open(items: [u64; 5], state: &mut [u64]) -> Told {
    let [step, ramp, level, decorrelation, acceleration] = items;
    told(|carried| unsafe { c::chim_record_open(step, ramp, level, decorrelation, acceleration, state.as_mut_ptr(), state.len(), carried) })
}

pub fn record_feed(state: &mut [u64], [roll, acceleration]: [&[i32]; 2]) -> ToldOfTwo {
    #[rustfmt::skip]
    return told_of_two(|carried, channel| unsafe {
        c::chim_record_feed(state.as_mut_ptr(), state.len(), roll.as_ptr(), roll.len(), acceleration.as_ptr(), acceleration.len(), carried, channel)
    });
}

pub fn first_crossing([roll, acceleration]: [&[i32]; 2], ramp: u64, levels: [u64; 2]) -> usize {
    let (xs, ys) = (roll.as_ptr(), acceleration.as_ptr());
    unsafe { c::chim_record_first_crossing(xs, roll.len(), ys, acceleration.len(), ramp, levels[0], levels[1]) }
}

pub fn record_list(items: [u64; 5], [roll, acceleration]: [&[i32]; 2], times: &mut [u32]) -> ToldOfTwo {
    let [step, ramp, level, decorrelation, other] = items;
    let (xs, ys, places) = (roll.as_ptr(), acceleration.as_ptr(), times.as_mut_ptr());
    told_of_two(|carried, channel| unsafe {
        c::chim_record_list(step, ramp, level, decorrelation, other, xs, roll.len(), ys, acceleration.len(), places, times.len(), carried, channel)
    })
}

pub fn campaign_open(standard: u64, state: &mut [u64]) -> Told {
    told(|carried| unsafe { c::chim_campaign_open(standard, state.as_mut_ptr(), state.len(), carried) })
}

pub fn record_end(record: &[u64], result: &mut [u64]) -> Told {
    told(|carried| unsafe { c::chim_record_end(record.as_ptr(), record.len(), result.as_mut_ptr(), result.len(), carried) })
}

pub fn campaign_enter(state: &mut [u64], failed: u64, exposure: u64) -> Told {
    told(|carried| unsafe { c::chim_campaign_enter(state.as_mut_ptr(), state.len(), failed, exposure, carried) })
}

pub fn campaign_enter_result(state: &mut [u64], result: &[u64]) -> Told {
    told(|carried| unsafe {
        c::chim_campaign_enter_result(state.as_mut_ptr(), state.len(), result.as_ptr(), result.len(), carried)
    })
}

pub fn campaign_censored(state: &[u64]) -> Told {
    told(|carried| unsafe { c::chim_campaign_censored(state.as_ptr(), state.len(), carried) })
}

pub fn campaign_verdict(state: &[u64], rates: &mut [f64; 2]) -> Told {
    let [lower, upper] = rates;
    told(|carried| unsafe { c::chim_campaign_verdict(state.as_ptr(), state.len(), lower, upper, carried) })
}

pub fn campaign_rates(state: &[u64], rates: &mut [f64; 3]) -> Told {
    let [estimate, lower, upper] = rates;
    told(|carried| unsafe { c::chim_campaign_rates(state.as_ptr(), state.len(), estimate, lower, upper, carried) })
}

pub fn upper_row(n: u64) -> u32 {
    unsafe { c::chim_upper_row(n) }
}

pub fn lower_row(n: u64) -> u32 {
    unsafe { c::chim_lower_row(n) }
}

pub fn bench_take(table: &mut [[u64; 6]], bureau: u64, standard: u64) -> Told {
    told(|carried| unsafe { c::chim_bench_take(table.as_mut_ptr(), table.len(), bureau, standard, carried) })
}

pub fn bench_enter(table: &mut [[u64; 6]], bureau: u64, place: u64, failed: u64, exposure: u64) -> Told {
    told(|carried| unsafe { c::chim_bench_enter(table.as_mut_ptr(), table.len(), bureau, place, failed, exposure, carried) })
}

pub fn bench_verdict(table: &mut [[u64; 6]], bureau: u64, place: u64, rates: &mut [f64; 3]) -> Told {
    let [_, lower, upper] = rates;
    told(|carried| unsafe { c::chim_bench_verdict(table.as_mut_ptr(), table.len(), bureau, place, lower, upper, carried) })
}

pub fn bench_rates(table: &mut [[u64; 6]], bureau: u64, place: u64, rates: &mut [f64; 3]) -> Told {
    let [estimate, lower, upper] = rates;
    told(|carried| unsafe { c::chim_bench_rates(table.as_mut_ptr(), table.len(), bureau, place, estimate, lower, upper, carried) })
}

pub fn bench_give_back(table: &mut [[u64; 6]], bureau: u64, place: u64) -> Told {
    told(|carried| unsafe { c::chim_bench_give_back(table.as_mut_ptr(), table.len(), bureau, place, carried) })
}
