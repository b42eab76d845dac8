# The job of `tally` in awk, for comparison; `rows` names the table, as crates/run_rows/stdout has it.
function refused(why) { printf "refused\t%d\t%d\n", NR, why; exit }
function number(s) { return s ~ /^(0|[1-9][0-9]*)$/ && length(s) <= 12 }
BEGIN { FS = "\t"; while ((getline row < rows) > 0) { split(row, part, "\t"); table[part[1], part[2]] = part[3] } table["lower", 0] = 0 }
length($0) > 63 { refused(9) }
NR == 1 { if (NF != 2 || $1 != "standard" || !number($2)) refused(9); q = $2; if (q < 1 || q > 100000000000) refused(1); next }
{
    if (NF != 3 || !number($1) || ($2 != "0" && $2 != "1") || !number($3) || $1 != m + 1) refused(9)
    if ($3 == 0) refused(4)
    if ($3 > 10000000) refused(3)
    if (m == 100000) refused(5)
    if (n == 64) refused(6)
    star = n + 1; m++; n += $2; t += $3
    letter = t * 1000000 < table["lower", n] * q ? "R" : t * 1000000 > table["upper", star] * q ? "A" : "C"
    printf "%d\t%d\t%d\t%.0f\t%s\n", m, n, star, t, letter
}
