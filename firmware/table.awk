# The table and the plot of firmware/index for a terminal. Behind layout.awk; `-v name1=` and `-v name2=` are the files' names.
END {
    set_scale()
    if (days == 1) one_day()
    else two_days()
    print ""
    plot()
}

function one_day(  row) {
    printf "%-16s  %11s  %8s  %7s\n", "time, UTC", "temperature", "humidity", "index"
    for (row = 1; row <= NR; row++) {
        line = sprintf("%-16s  %11s  %8s  %7s", time[row], degrees(tenths[1, row]), per_cent[1, row], decimals(hundredths[1, row]))
        print line note(hot[1, row] ? "hottest" : why_not(1, row))
    }
}

function two_days(  row) {
    print "before: " name1
    print "after:  " name2
    print ""
    printf "%-16s  %22s    %22s\n", "", "before", "after"
    printf "%-16s  %6s %6s %8s    %6s %6s %8s    %10s\n", "time, UTC", "temp.", "hum.", "index", "temp.", "hum.", "index", "difference"
    for (row = 1; row <= NR; row++) {
        line = sprintf("%-16s  %s  %s  %10s", time[row], cells(1, row), cells(2, row), change(row))
        print line note(moved(row) ? "moved" : why_not(2, row))
    }
    print "* the hottest hour"
    print ""
    print movements()
    print hottest_hours()
}

function cells(day, row) {
    return sprintf("%6s %6s %8s %s", degrees(tenths[day, row]), per_cent[day, row], decimals(hundredths[day, row]), hot[day, row] ? "*" : " ")
}

function note(text) {
    return text == "" ? "" : "  " text
}

function plot(  row, day) {
    print "bars from " decimals(low) " to " decimals(high)
    for (row = 1; row <= NR; row++)
        for (day = 1; day <= days; day++)
            print sprintf("%-16s  %s%s", day == 1 ? time[row] : "", days == 1 ? "" : day == 1 ? "before " : "after  ", "|") bar(day, row)
}

function bar(day, row,  text, left) {
    if (!has_index(day, row)) return " -"
    for (left = int((hundredths[day, row] - low) * 50 / (high - low) + 0.5); left > 0; left--) text = text (day == 1 ? "=" : "#")
    return text " " decimals(hundredths[day, row]) (hot[day, row] ? " hottest" : "")
}
