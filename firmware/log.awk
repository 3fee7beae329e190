# Makes HEX files of an image and readings: its lines below 0x0400, and the log at 0x0400 as struct log of heat.h has it.
# First comes the image's HEX file, then lines of readings.awk; the HEX text of day N goes to the file `-v into=PREFIX`N.hex.
BEGIN {
    FS = "\t"
    digits = "0123456789ABCDEF"
}

FILENAME == ARGV[1] {
    sub(/\r$/, "")
    if (substr($0, 8, 2) == "00" && substr($0, 4, 4) < "0400") image = image $0 "\n"
    next
}

$1 == "day" {
    finish()
    days++
}

$1 == "hour" && $4 != "-" { temperature[temperatures++] = reading($2, $4) }
$1 == "hour" && $5 != "-" { humidity[humidities++] = reading($2, $5) }
END { finish() }

function finish(  log_bytes, i) {
    if (days > 0) {
        log_bytes = byte(temperatures) byte(humidities)
        for (i = 0; i < 8; i++) log_bytes = log_bytes (i < temperatures ? temperature[i] : reading(0, 0))
        for (i = 0; i < 8; i++) log_bytes = log_bytes (i < humidities ? humidity[i] : reading(0, 0))
        printf "%s%s:00000001FF\n", image, lines(log_bytes) >(into days ".hex")
        close(into days ".hex")
    }
    temperatures = humidities = 0
}

function reading(stamp, value) { # low byte first
    if (value < 0) value += 65536
    return byte(stamp % 256) byte(int(stamp / 256) % 256) byte(int(stamp / 65536) % 256) byte(int(stamp / 16777216)) byte(value % 256) byte(int(value / 256))
}

function byte(value) {
    return substr(digits, int(value / 16) + 1, 1) substr(digits, value % 16 + 1, 1)
}

function lines(bytes,  at, all, line) { # of 16 bytes, from 0x0400 on
    for (at = 0; at * 2 < length(bytes); at += 16) {
        line = substr(bytes, at * 2 + 1, 32)
        line = byte(length(line) / 2) byte(4 + int(at / 256)) byte(at % 256) "00" line
        all = all ":" line sum(line) "\n"
    }
    return all
}

function sum(line,  i, total) { # the byte that makes all of the line 0
    for (i = 1; i < length(line); i += 2) total += (index(digits, substr(line, i, 1)) - 1) * 16 + index(digits, substr(line, i + 1, 1)) - 1
    return byte((256 - total % 256) % 256)
}
