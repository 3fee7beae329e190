# Prints the table of forms (02, W10) from the patterns of `decode`, each a line `on "PATTERN" (.. λ x. NAME ..`, in their order: the first that fits a word is its form.
/^    on "/ {
    split($0, part, "\"")
    text[++patterns] = part[2]
    gsub("_", "", text[patterns])
    name[patterns] = $0
    sub(/^.*λ x( prefetch)?\. /, "", name[patterns])
    sub(/[ )].*/, "", name[patterns])
}

function bits(number, width,    digits) {
    for (digits = ""; width > 0; width--) {
        digits = number % 2 digits
        number = int(number / 2)
    }
    return digits
}

function fits(pattern, word,    at, place) {
    for (at = 1; at <= 16; at++) {
        place = substr(pattern, at, 1)
        if ((place == "0" || place == "1") && place != substr(word, at, 1)) return 0
    }
    return 1
}

function form(word,    p) {
    for (p = 1; p <= patterns; p++) if (fits(text[p], word)) return name[p]
    return "UNDEF"
}

# of the sixteen words with a high byte and a low nibble: their form, or the mark where they have more than one
function entry(high, low,    first, b) {
    first = form(high "0000" low)
    for (b = 1; b < 16; b++) if (form(high bits(b, 4) low) != first) return "LOOK_FURTHER"
    return first
}

END {
    print "// The table: the form of the sixteen words beside an entry, or the mark where they have more than one."
    print "// Printed by `tools/forms print` from the patterns of `decode`, and not to be written by hand."
    print "use forms::form::*;"
    print ""
    print "pub(crate) const TABLE: [u8; 4096] = ["
    for (i = 0; i < 4096; i++) printf "    %s, // 0x%02X?%X\n", entry(bits(int(i / 16), 8), bits(i % 16, 4)), int(i / 16), i % 16
    print "];"
}
