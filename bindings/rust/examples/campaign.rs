//! A campaign at one failure in two hours: a roll that crosses 40 degrees, then quiet records by their exposure; at the end its
//! loading condition, with a second situation that has no record yet, and the first record by the binomial method. It prints what examples/c/campaign.c prints.

use chimenickel::{list, read_records, with_zeros, write_report, write_sheet, Campaign, Items, Record, Refusal, Sum, Verdict};

fn show(c: &Campaign) -> Result<(), Refusal> {
    print!("M = {}, N = {}, T = {} ms: ", c.records(), c.failures(), c.exposure());
    match c.verdict()? {
        Verdict::NoRecord => println!("no record"),
        Verdict::Accept { upper } => println!("accept, at most {upper:.9} per second"),
        Verdict::Reject { lower } => println!("reject, at least {lower:.9} per second"),
        Verdict::Continue { lower, upper } => println!("continue, {lower:.9} to {upper:.9} per second"),
    }
    Ok(())
}

fn main() -> Result<(), Refusal> {
    let items = Items { step: 500, ramp: 0, level: 40_000, decorrelation: 2_000, acceleration_level: 9_810 };
    let roll = [0, 41_000, 39_000, 41_000, 39_000, 41_000, 0];
    let mut campaign = Campaign::open(7_200_000)?;
    let mut record = Record::open(items)?;
    for piece in roll.chunks(3) {
        record.feed_roll(piece)?;
    }
    let ended = record.end()?;
    println!(
        "crossings {}, counted {}, largest set {}, first failure at sample {}, exposure {} ms",
        ended.crossings,
        ended.counted,
        ended.largest_set,
        ended.first.unwrap_or(0),
        ended.exposure
    );
    campaign.enter_result(&ended)?;
    show(&campaign)?;
    for i in 0..25 {
        campaign.enter(false, 1_800_000)?;
        if i == 9 || i == 24 {
            show(&campaign)?;
        }
    }
    match record.feed_roll(&[0, 2_000_000]) {
        Err(refusal @ Refusal::Sample(place)) => println!("refused: {} ({place})", refusal.number()),
        other => other?,
    }
    let times: Vec<String> = with_zeros(roll.len(), |zeros| list(items, &roll, zeros))?.iter().map(u32::to_string).collect();
    println!("counted times: {} ms", times.join(" "));
    let mut records = vec![-(ended.exposure as i32)];
    records.resize(26, 1_800_000);
    let sheet = write_sheet(7_200_000, &records)?;
    let (standard, back) = read_records(sheet.as_bytes()).map_err(|bad| bad.refusal)?;
    let same = if back == records { "the same" } else { "others" };
    println!("sheet: {} bytes, standard {standard} ms, {} records read back, {same}", sheet.len(), back.len());
    print!("{}", write_report(&[campaign, Campaign::open(7_200_000)?])?);
    let mut sum = Sum::open(items.step)?;
    sum.add(&record)?;
    if let Some(bounds) = sum.bounds()? {
        println!(
            "binomial: N = {}, P = {}, {} to {} thousandths of a failure in {} ms",
            sum.failures(),
            sum.samples(),
            bounds.lower,
            bounds.upper,
            bounds.time
        );
    }
    Ok(())
}
