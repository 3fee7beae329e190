# Turns what `avr-objdump -D` says of a program (standard input) into the lines that ./listing prints of it: aliases into the instructions that they stand for, byte addresses into word addresses.
# An instruction that the core lacks becomes the .word that it is in a listing.
BEGIN {
    FS = "\t"
    stand_for("sec sez sen sev ses seh set sei", "BSET")
    stand_for("clc clz cln clv cls clh clt cli", "BCLR")
    stand_for("brcs breq brmi brvs brlt brhs brts brie", "BRBS")
    stand_for("brcc brne brpl brvc brge brhc brtc brid", "BRBC")
    lacking = " des eicall eijmp elpm spm lac las lat xch "
}

function stand_for(aliases, name,    each, i) { # of the flags 0 to 7
    for (i = split(aliases, each, " "); i > 0; i--) {
        name_of[each[i]] = name
        flag_of[each[i]] = i - 1
    }
}

function number(digits,    i, n) { # hexadecimal ones
    for (i = 1; i <= length(digits); i++) n = n * 16 + index("0123456789ABCDEF", toupper(substr(digits, i, 1))) - 1
    return n
}

function words(bytes,    each, count, i, text) { # "0e 94 23 01 " as "940E 0123"
    count = split(bytes, each, " ")
    for (i = 1; i < count; i += 2) text = text (i > 1 ? " " : "") toupper(each[i + 1] each[i])
    return text
}

function constant(name, n) {
    if (name ~ /^(JMP|CALL)$/) return sprintf("0x%06X", n / 2)
    return sprintf(name ~ /^(LDS|STS|\.word)$/ ? "0x%04X" : "0x%02X", n)
}

function operand(name, text, at) { # pointers, bits and flags are written alike
    if (text ~ /^0x/ || name ~ /^(JMP|CALL)$/) return constant(name, number(substr(text, 3))) # target 0 has no 0x
    if (text ~ /^\./) return sprintf("0x%04X", (at + 1 + substr(text, 2) / 2 + 65536) % 65536)
    if (text !~ /^r/) return text
    return (name ~ /^(ADIW|SBIW|MOVW)$/ ? "R" substr(text, 2) + 1 ":" : "") toupper(text)
}

function operands(name, text, at,    each, count, i, list) {
    count = split(text, each, ", ")
    for (i = 1; i <= count; i++) list = list (i > 1 ? ", " : " ") operand(name, each[i], at)
    return list
}

function instruction(name, text, at, word) {
    if (index(lacking, " " name " ")) return ".word 0x" word
    if (name in name_of) return name_of[name] operands("", flag_of[name] (text == "" ? "" : ", " text), at)
    if (name == "ld" && text ~ / [YZ]$/ || name == "st" && text ~ /^[YZ],/) { # LD Rd, Y is LDD Rd, Y+0
        sub(/[YZ]/, "&+0", text)
        name = name "d"
    }
    if (name != ".word") name = toupper(name)
    return name operands(name, text, at)
}

/^ *[0-9a-f]+:\t/ {
    gsub(/[ :]/, "", $1)
    sub(/ +$/, "", $4)
    at = number($1) / 2
    printf "%04X %-9s %s\n", at, words($2), instruction($3, $4, at, words(substr($2, 1, 5)))
}
