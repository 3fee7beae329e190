# The table and the plot of firmware/index as a picture. Behind layout.awk; `-v name1=` and `-v name2=` are the files' names.
END {
    set_scale()
    set_places()
    head()
    for (row = 1; row <= NR; row++) hour(row)
    foot()
    print "</svg>"
}

function set_places() { # of columns, by their right edges, and of rows
    index_at[1] = 300
    index_at[2] = 490
    bars = days == 2 ? 630 : 350
    wide = 230
    first = days == 2 ? 118 : 92
    tall = 34
    colour[1] = "#868e96"
    colour[2] = "#d9480f"
}

function head(  day, height) {
    height = first + NR * tall + (days == 2 ? 96 : 44)
    printf "<svg xmlns=\"http://www.w3.org/2000/svg\" width=\"%d\" height=\"%d\" viewBox=\"0 0 %d %d\" font-family=\"sans-serif\" font-size=\"14\" fill=\"#212529\">\n", bars + wide + 30, height, bars + wide + 30, height
    print "<rect width=\"100%\" height=\"100%\" fill=\"#ffffff\"/>"
    text(20, 32, "start", "Heat index by the hour", " font-size=\"18\" font-weight=\"bold\"")
    text(20, first - 18, "start", "time, UTC", grey())
    for (day = 1; day <= days; day++) columns(day)
    if (days == 2) text(600, first - 18, "end", "difference", grey())
    scale()
}

function columns(day,  at) {
    at = index_at[day]
    if (days == 2) {
        printf "<rect x=\"%d\" y=\"%d\" width=\"12\" height=\"12\" fill=\"%s\"/>\n", at - 132, first - 53, colour[day]
        text(at - 114, first - 42, "start", day == 1 ? "before" : "after", " font-weight=\"bold\"")
    }
    text(at - 100, first - 18, "end", "&#176;C", grey())
    text(at - 58, first - 18, "end", "%", grey())
    text(at, first - 18, "end", "index", grey())
}

function scale(  value, x) { # a line at every 5.00
    for (value = low; value <= high; value += 500) {
        x = place(value)
        printf "<line x1=\"%.1f\" y1=\"%d\" x2=\"%.1f\" y2=\"%d\" stroke=\"#dee2e6\"/>\n", x, first - 8, x, first + NR * tall
        if ((value - low) % (500 * every()) == 0) text(x, first - 18, "middle", sprintf("%d", value / 100), grey())
    }
}

function every() { # so many lines to a figure, that figures have room
    return 1 + int((high - low) / 500 / 7)
}

function place(value) {
    return bars + (value - low) * wide / (high - low)
}

function hour(row,  top, day) {
    top = first + (row - 1) * tall
    printf "<line x1=\"20\" y1=\"%d\" x2=\"%d\" y2=\"%d\" stroke=\"#dee2e6\"/>\n", top, bars + wide, top
    text(20, top + 22, "start", time[row], "")
    for (day = 1; day <= days; day++) figures(day, row, top)
    if (days == 2) text(600, top + 22, "end", minus(change(row)), moved(row) ? " font-weight=\"bold\"" : grey())
    if (!has_index(1, row) && !has_index(days, row)) text(bars + 8, top + 22, "start", why_not(days, row), grey())
}

function figures(day, row, top,  at, high_bar, y) {
    at = index_at[day]
    text(at - 100, top + 22, "end", minus(degrees(tenths[day, row])), "")
    text(at - 58, top + 22, "end", per_cent[day, row], "")
    text(at, top + 22, "end", minus(decimals(hundredths[day, row])), hot[day, row] ? " font-weight=\"bold\"" : "")
    if (hot[day, row]) text(at + 5, top + 22, "start", "&#9650;", "")
    if (!has_index(day, row)) return
    high_bar = days == 2 ? 11 : 18
    y = days == 2 ? top + 5 + (day - 1) * 13 : top + 8
    printf "<rect x=\"%.1f\" y=\"%d\" width=\"%.1f\" height=\"%d\" fill=\"%s\"/>\n", bars, y, place(hundredths[day, row]) - bars, high_bar, colour[days == 2 ? day : 2]
}

function foot(  y) {
    y = first + NR * tall
    printf "<line x1=\"20\" y1=\"%d\" x2=\"%d\" y2=\"%d\" stroke=\"#dee2e6\"/>\n", y, bars + wide, y
    text(20, y + 26, "start", "&#9650; the hottest hour. " (days == 2 ? "Before is " : "Of ") escaped(name1) ". The bars begin at " sprintf("%d", low / 100) ".", grey())
    if (days == 1) return
    text(20, y + 50, "start", "After is " escaped(name2) ".", grey())
    text(20, y + 74, "start", how_many_moved() ". " capital(hottest_hours()) ".", "")
}

function grey() {
    return " fill=\"#495057\""
}

function minus(figure) { # with the sign that is printed for it
    sub(/^-/, figure == "-" ? "-" : "\\&#8722;", figure)
    return figure
}

function capital(sentence) {
    return toupper(substr(sentence, 1, 1)) substr(sentence, 2)
}

function escaped(name) {
    gsub(/&/, "\\&amp;", name)
    gsub(/</, "\\&lt;", name)
    return name
}

function text(x, y, anchor, words, more) {
    if (words != "") printf "<text x=\"%.1f\" y=\"%d\" text-anchor=\"%s\"%s>%s</text>\n", x, y, anchor, more, words
}
