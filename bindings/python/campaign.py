"""A campaign at one failure in two hours: a roll that crosses 40 degrees, then quiet records by their exposure; at the
end its loading condition, with a second situation that has no record yet, and the first record by the binomial method.
It prints what examples/c/campaign.c prints."""

from chimenickel import Campaign, Case, Record, Refusal, Sum, counted_times, read_records, write_report, write_sheet


def show(campaign):
    case, lower, upper = campaign.verdict()
    says = {
        Case.NO_RECORD: lambda: "no record",
        Case.ACCEPT: lambda: f"accept, at most {upper:.9f} per second",
        Case.REJECT: lambda: f"reject, at least {lower:.9f} per second",
        Case.CONTINUE: lambda: f"continue, {lower:.9f} to {upper:.9f} per second",
    }
    print(f"M = {campaign.records}, N = {campaign.failures}, T = {campaign.exposure} ms: {says[case]()}")


items = dict(step=500, ramp=0, level=40_000, decorrelation=2_000, acceleration_level=9_810)
roll = [0, 41_000, 39_000, 41_000, 39_000, 41_000, 0]
campaign = Campaign(7_200_000)
record = Record(**items)
record.feed(roll[:3])
record.feed(roll[3:])
result = record.end()
print(
    f"crossings {result.crossings}, counted {result.counted}, largest set {result.largest_set}, first failure at sample {result.first}, exposure {result.exposure} ms"
)
campaign.enter_result(result)
show(campaign)
for i in range(25):
    campaign.enter(False, 1_800_000)
    if i in (9, 24):
        show(campaign)
try:
    record.feed([0, 2_000_000])
except Refusal as refusal:
    print(f"refused: {refusal.number} ({refusal.carried})")
print("counted times:", *counted_times(**items, roll=roll), "ms")
records = [-result.exposure] + 25 * [1_800_000]
sheet = write_sheet(7_200_000, records)
standard, back = read_records(sheet)
same = "the same" if back == records else "others"
print(f"sheet: {len(sheet)} bytes, standard {standard} ms, {len(back)} records read back, {same}")
print(write_report([campaign, Campaign(7_200_000)]).decode(), end="")
total = Sum(items["step"])
total.add(record)
bounds = total.bounds()
print(f"binomial: N = {total.failures}, P = {total.samples}, {bounds.lower} to {bounds.upper} thousandths of a failure in {bounds.time} ms")
