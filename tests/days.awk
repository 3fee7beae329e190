# Makes `-v days=` random days of readings, files `-v into=FOLDER`/N.csv, the same in every awk: missing readings, temperatures below 0, hours in any order, and equal indexes.
BEGIN {
    seed = 20260714
    for (day = 1; day <= days; day++) make(into "/" day ".csv")
}

function random(limit) { # 0 to limit - 1
    seed = seed * 16807 % 2147483647
    return int(seed / 2147483647 * limit)
}

function make(file,  date, hours, hour, by, alike, i) {
    date = sprintf("%04d-%02d-%02d", 1970 + random(136), 1 + random(12), 1 + random(28))
    hours = 1 + random(12)
    hour = random(24)
    split("1 5 7 23", steps, " ")
    by = steps[1 + random(4)]
    alike = random(4) == 0
    temperatures = humidities = 0
    print "time,temperature,humidity" >file
    for (i = 0; i < hours; i++) {
        printf "%s %02d:%02d,%s,%s%s\n", date, (hour + i * by) % 24, alike ? 0 : random(60), temperature(alike), humidity(alike), (random(8) ? "" : "\r") >file
        if (random(10) == 0) print "# a remark" >file
    }
    close(file)
}

function temperature(alike,  tenths) {
    if (random(5) == 0 || temperatures == 8) return ""
    temperatures++
    tenths = alike ? 284 + random(2) : random(1001) - 400
    return sprintf(random(2) || tenths % 10 ? "%s%d.%d" : "%s%d", tenths < 0 ? "-" : "", size(tenths) / 10, size(tenths) % 10)
}

function size(tenths) {
    return tenths < 0 ? -tenths : tenths
}

function humidity(alike) {
    if (random(5) == 0 || humidities == 8) return ""
    humidities++
    return alike ? 58 : random(101)
}
