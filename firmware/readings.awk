# Reads files of readings, CSV with the header `time,temperature,humidity`. Prints `day FILE`, and for each line
#     hour STAMP TIME TENTHS PER_CENT
# with tabs between, STAMP in seconds since 1970, and - for a missing reading. At the first wrong line it prints what is wrong with it, and ends with 2.
BEGIN {
    OFS = "\t"
    most = 8 # temperatures, and humidities, in a log
    no_header = "the header is missing; the first line is time,temperature,humidity"
    for (i = 1; i < ARGC; i++) {
        read_file(ARGV[i])
        if (fault) break
    }
    exit fault
}

function wrong(text) {
    print file ": line " number ": " text
    fault = 2
}

function read_file(name,  line) {
    file = name
    number = temperatures = humidities = hours = headed = 0
    split("", taken)
    print "day", file
    while (!fault && (getline line <file) > 0) {
        number++
        sub(/\r$/, "", line)
        if (number == 1) sub(/^\357\273\277/, "", line) # a mark that some editors put in front
        read_line(line)
    }
    close(file)
    if (!fault && hours == 0) {
        number++
        wrong(headed ? "no readings; give a line for each hour, as 2026-07-14 13:00,30.1,58" : no_header)
    }
}

function read_line(line,  field, fields) {
    if (line ~ /^[ \t]*(#.*)?$/) return
    if (!headed) {
        if (line != "time,temperature,humidity") wrong(no_header)
        headed = 1
        return
    }
    fields = split(line, field, ",")
    if (fields != 3) {
        wrong("three fields belong here, as 2026-07-14 13:00,30.1,58; a missing reading is an empty field")
        return
    }
    read_fields(blankless(field[1]), blankless(field[2]), blankless(field[3]))
}

function blankless(text) {
    sub(/^[ \t]+/, "", text)
    sub(/[ \t]+$/, "", text)
    return text
}

function read_fields(time, temperature, humidity,  stamp, tenths) {
    stamp = stamp_of(time)
    tenths = temperature == "" ? "-" : tenths_of(temperature)
    if (stamp == "") wrong("'" time "' is no time; give one in UTC as 2026-07-14 13:00, from 1970 to 2105")
    else if (stamp in taken) wrong(time " is there twice; give an hour one line")
    else if (tenths == "") wrong("'" temperature "' is no temperature; give degrees from -40.0 to 60.0 with at most one decimal, or nothing")
    else if (humidity !~ /^[0-9]?[0-9]?[0-9]?$/ || humidity + 0 > 100) wrong("'" humidity "' is no humidity; give whole per cent from 0 to 100, or nothing")
    else if (temperature != "" && ++temperatures > most) wrong("a ninth temperature; a log has room for eight")
    else if (humidity != "" && ++humidities > most) wrong("a ninth humidity; a log has room for eight")
    else print "hour", stamp, time, tenths, (humidity == "" ? "-" : humidity + 0)
    taken[stamp] = 1
    hours++
}

function tenths_of(text,  size, part) {
    if (text !~ /^-?[0-9][0-9]?(\.[0-9])?$/) return ""
    size = text
    sub(/^-/, "", size)
    split(size, part, ".")
    size = part[1] * 10 + part[2]
    if (text ~ /^-/) size = -size
    return size < -400 || size > 600 ? "" : size
}

function stamp_of(time,  year, month, day, hour, minute) {
    if (time !~ /^[0-9][0-9][0-9][0-9]-[0-9][0-9]-[0-9][0-9] [0-9][0-9]:[0-9][0-9]$/) return ""
    year = substr(time, 1, 4) + 0
    month = substr(time, 6, 2) + 0
    day = substr(time, 9, 2) + 0
    hour = substr(time, 12, 2) + 0
    minute = substr(time, 15, 2) + 0
    if (year < 1970 || year > 2105 || month < 1 || month > 12 || day < 1 || day > days_of(year, month) || hour > 23 || minute > 59) return ""
    return sprintf("%.0f", ((days_before(year, month) + day - 1) * 24 + hour) * 3600 + minute * 60)
}

function is_leap(year) {
    return year % 4 == 0 && year % 100 != 0 || year % 400 == 0
}

function days_of(year, month) {
    return month == 2 ? 28 + is_leap(year) : 30 + (month + int(month / 8)) % 2
}

function days_before(year, month,  days) { # since 1970, of whole years and months
    days = (year - 1970) * 365 + int((year - 1969) / 4) - (year > 2100)
    while (--month > 0) days += days_of(year, month)
    return days
}
