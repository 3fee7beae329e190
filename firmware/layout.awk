# What table.awk and svg.awk share: rows of rows.awk, read into arrays, and how figures are written.
BEGIN { FS = "\t" }

{
    days = int(NF / 4)
    time[NR] = $1
    for (day = 1; day <= days; day++) {
        tenths[day, NR] = $(4 * day - 2)
        per_cent[day, NR] = $(4 * day - 1)
        hundredths[day, NR] = $(4 * day)
        hot[day, NR] = $(4 * day + 1)
        if (hot[day, NR]) hottest[day] = NR
        if (has_index(day, NR)) widen($(4 * day))
    }
}

function has_index(day, row) {
    return hundredths[day, row] != "-" && hundredths[day, row] != ""
}

function widen(index_now) { # keeps $least and $greatest
    if (!indexes++ || index_now < least) least = index_now
    if (indexes == 1 || index_now > greatest) greatest = index_now
}

function set_scale() { # in hundredths: from a multiple of 5.00 below all indexes to one above
    if (!indexes) least = greatest = 0
    low = floor((least - 1) / 500) * 500
    high = -floor(-(greatest + 1) / 500) * 500
}

function floor(value) {
    return int(value) - (value < int(value))
}

function degrees(value) {
    return value == "" || value == "-" ? value : sprintf("%.1f", value / 10)
}

function decimals(value) { # of hundredths
    return value == "" || value == "-" ? value : sprintf("%.2f", value / 100)
}

function moved(row) { # from one index to another, or to or from none
    return days == 2 && (has_index(1, row) || has_index(2, row)) && hundredths[1, row] != hundredths[2, row]
}

function change(row,  by) {
    if (!has_index(1, row) || !has_index(2, row)) return "-"
    by = hundredths[2, row] - hundredths[1, row]
    return (by > 0 ? "+" : "") decimals(by)
}

function why_not(day, row) { # why there is no index
    if (has_index(day, row)) return ""
    if (tenths[day, row] == "") return "not in the file"
    if (tenths[day, row] == "-" && per_cent[day, row] == "-") return "no reading"
    return tenths[day, row] == "-" ? "no temperature" : per_cent[day, row] == "-" ? "no humidity" : "none given"
}

function movements(  row, all) {
    for (row = 1; row <= NR; row++) if (moved(row)) all = all (all == "" ? "" : ", ") time[row] " from " given(1, row) " to " given(2, row)
    return all == "" ? "no hour moved" : "moved: " all
}

function given(day, row) {
    return has_index(day, row) ? decimals(hundredths[day, row]) : "none"
}

function hottest_hours() {
    if (!hottest[1] && !hottest[2]) return "no hour has an index"
    if (hottest[1] == hottest[2]) return "the hottest hour stays " time[hottest[1]]
    return "the hottest hour moved: it was " hour_of(1) ", and is " hour_of(2)
}

function hour_of(day) {
    return hottest[day] ? time[hottest[day]] : "none"
}

function how_many_moved(  row, count) {
    for (row = 1; row <= NR; row++) count += moved(row)
    return count == 0 ? "No hour moved" : count == 1 ? "1 hour moved" : count " hours moved"
}
