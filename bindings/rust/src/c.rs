//! include/chimenickel.h.

extern "C" {
    pub fn chim_record_open(
        step: u64,
        ramp: u64,
        level: u64,
        decorrelation: u64,
        acceleration_level: u64,
        state: *mut u64,
        state_len: usize,
        carried: *mut u64,
    ) -> u64;
    pub fn chim_record_feed(
        state: *mut u64,
        state_len: usize,
        roll: *const i32,
        roll_len: usize,
        acceleration: *const i32,
        acceleration_len: usize,
        carried: *mut u64,
        channel: *mut u64,
    ) -> u64;
    pub fn chim_record_end(state: *const u64, state_len: usize, result: *mut u64, result_len: usize, carried: *mut u64) -> u64;
    pub fn chim_record_first_crossing(
        roll: *const i32,
        roll_len: usize,
        acceleration: *const i32,
        acceleration_len: usize,
        ramp: u64,
        level: u64,
        acceleration_level: u64,
    ) -> usize;
    pub fn chim_record_list(
        step: u64,
        ramp: u64,
        level: u64,
        decorrelation: u64,
        acceleration_level: u64,
        roll: *const i32,
        roll_len: usize,
        acceleration: *const i32,
        acceleration_len: usize,
        times: *mut u32,
        times_len: usize,
        carried: *mut u64,
        channel: *mut u64,
    ) -> u64;
    pub fn chim_campaign_open(standard: u64, state: *mut u64, state_len: usize, carried: *mut u64) -> u64;
    pub fn chim_campaign_enter(state: *mut u64, state_len: usize, failed: u64, exposure: u64, carried: *mut u64) -> u64;
    pub fn chim_campaign_enter_result(
        state: *mut u64,
        state_len: usize,
        result: *const u64,
        result_len: usize,
        carried: *mut u64,
    ) -> u64;
    pub fn chim_campaign_censored(state: *const u64, state_len: usize, carried: *mut u64) -> u64;
    pub fn chim_campaign_verdict(state: *const u64, state_len: usize, lower: *mut f64, upper: *mut f64, carried: *mut u64) -> u64;
    pub fn chim_campaign_rates(
        state: *const u64,
        state_len: usize,
        estimate: *mut f64,
        lower: *mut f64,
        upper: *mut f64,
        carried: *mut u64,
    ) -> u64;
    pub fn chim_sheet_read(
        text: *const u8,
        text_len: usize,
        state: *mut u64,
        state_len: usize,
        line: *mut u64,
        column: *mut u64,
        carried: *mut u64,
    ) -> u64;
    pub fn chim_bench_take(table: *mut [u64; 6], table_len: usize, bureau: u64, standard: u64, carried: *mut u64) -> u64;
    pub fn chim_bench_enter(
        table: *mut [u64; 6],
        table_len: usize,
        bureau: u64,
        place: u64,
        failed: u64,
        exposure: u64,
        carried: *mut u64,
    ) -> u64;
    pub fn chim_bench_verdict(
        table: *mut [u64; 6],
        table_len: usize,
        bureau: u64,
        place: u64,
        lower: *mut f64,
        upper: *mut f64,
        carried: *mut u64,
    ) -> u64;
    pub fn chim_bench_rates(
        table: *mut [u64; 6],
        table_len: usize,
        bureau: u64,
        place: u64,
        estimate: *mut f64,
        lower: *mut f64,
        upper: *mut f64,
        carried: *mut u64,
    ) -> u64;
    pub fn chim_bench_give_back(table: *mut [u64; 6], table_len: usize, bureau: u64, place: u64, carried: *mut u64) -> u64;
    pub fn chim_sum_open(step: u64, state: *mut u64, state_len: usize, carried: *mut u64) -> u64;
    pub fn chim_sum_add(state: *mut u64, state_len: usize, added: *const u64, added_len: usize, carried: *mut u64) -> u64;
    pub fn chim_sum_bounds(state: *const u64, state_len: usize, bounds: *mut u64, bounds_len: usize, carried: *mut u64) -> u64;
    pub fn chim_sum_rates(
        state: *const u64,
        state_len: usize,
        estimate: *mut f64,
        lower: *mut f64,
        upper: *mut f64,
        carried: *mut u64,
    ) -> u64;
    pub fn chim_condition_judge(campaigns: *const [u64; 5], situations: usize, carried: *mut u64) -> u64;
    pub fn chim_condition_report(campaigns: *const [u64; 5], situations: usize, out: *mut u8, room: usize, carried: *mut u64) -> u64;
    pub fn chim_envelope_find(
        step: u64,
        ramp: u64,
        decorrelation: u64,
        samples: *const i32,
        samples_len: usize,
        sizes: *mut u32,
        sizes_len: usize,
        times: *mut u32,
        times_len: usize,
        carried: *mut u64,
    ) -> u64;
    pub fn chim_peaks_survey(step: u64, ramp: u64, state: *mut u64, state_len: usize, carried: *mut u64) -> u64;
    pub fn chim_peaks_take(state: *mut u64, state_len: usize, samples: *const i32, samples_len: usize, carried: *mut u64) -> u64;
    pub fn chim_peaks_begin(
        survey: *const u64,
        survey_len: usize,
        decorrelation: u64,
        state: *mut u64,
        state_len: usize,
        carried: *mut u64,
    ) -> u64;
    pub fn chim_peaks_hand_over(
        state: *mut u64,
        state_len: usize,
        samples: *const i32,
        samples_len: usize,
        sizes: *mut u32,
        sizes_len: usize,
        times: *mut u32,
        times_len: usize,
        carried: *mut u64,
    ) -> u64;
    pub fn chim_peaks_last(state: *const u64, state_len: usize, size: *mut u32, time: *mut u32, carried: *mut u64) -> u64;
    pub fn chim_tail_fit(peaks: *const u32, peaks_len: usize, k: u64, sorted: *mut u32, sorted_len: usize, carried: *mut u64) -> u64;
    pub fn chim_extrapolate(
        peaks: *const u32,
        peaks_len: usize,
        k: u64,
        level: u64,
        step: u64,
        samples: u64,
        standard: u64,
        times: *mut u64,
        times_len: usize,
        carried: *mut u64,
    ) -> u64;
    pub fn chim_sheet_write(standard: u64, records: *const i32, records_len: usize, out: *mut u8, out_len: usize, carried: *mut u64) -> u64;
    pub fn chim_sheet_records(
        text: *const u8,
        text_len: usize,
        records: *mut i32,
        records_len: usize,
        standard: *mut u64,
        line: *mut u64,
        column: *mut u64,
        carried: *mut u64,
    ) -> u64;
    pub fn chim_comma_read(text: *const u8, text_len: usize, step: u64, samples: *mut i32, samples_len: usize, carried: *mut u64) -> u64;
    pub fn chim_comma_write(samples: *const i32, samples_len: usize, step: u64, out: *mut u8, out_len: usize, carried: *mut u64) -> u64;
    pub fn chim_upper_row(n: u64) -> u32;
    pub fn chim_lower_row(n: u64) -> u32;
    pub fn chim_version() -> u64;
}
