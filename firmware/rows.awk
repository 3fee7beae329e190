# Joins readings and reports, of one day or of two: first come lines of readings.awk, then of reports_of. Prints a line for each hour, by time, with tabs between:
#     TIME, and for each day TENTHS PER_CENT HUNDREDTHS HOTTEST
# with - for what is missing, an empty field where the day does not name the hour, and HOTTEST 1 or 0.
BEGIN { FS = OFS = "\t" }

$1 == "day" { day = FILENAME == ARGV[1] ? ++days : $2 }

$1 == "hour" {
    if (!($2 in time)) stamp[++hours] = $2
    time[$2] = $3
    reading[day, $2] = $4 OFS $5
}

$1 == "index" { hundredths[day, $2] = $3 }
$1 == "hottest" { hottest[day] = $2 }

END {
    for (i = 2; i <= hours; i++) for (j = i; j > 1 && stamp[j - 1] + 0 > stamp[j] + 0; j--) { held = stamp[j]; stamp[j] = stamp[j - 1]; stamp[j - 1] = held }
    for (i = 1; i <= hours; i++) {
        line = time[stamp[i]]
        for (day = 1; day <= days; day++) line = line OFS of_day(stamp[i])
        print line
    }
}

function of_day(at) {
    if (!((day, at) in reading)) return OFS OFS OFS 0
    return reading[day, at] OFS ((day, at) in hundredths ? hundredths[day, at] : "-") OFS (hottest[day] == at)
}
