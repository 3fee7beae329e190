# Prints a row of docs/CONTRACTS.md for each public function of a file of Rattle and for each of its conversions, an `impl From`, and its faults to standard error. What it does not understand is a fault.
# The file is in the layout of `rt fmt`.
BEGIN {
    # a clause's form, and the law of crates/promises/specs/OneOutcome.antt by which it pins what it speaks of:
    # D is a definition over what was there before the call, r the result, x a parameter or what it points to before the call, and x′ what it points to after it
    rules["r ≡ D"] = rules["x′ ≡ D"] = "equation"
    rules["said_register r ≡ D"] = "reads_register"
    rules["said_set x r ≡ D"] = "sets_register"
    rules["said_lack r ≡ D"] = "lacks"
    rules["said_read r ≡ D"] = "reads"
    rules["said r ≡ D"] = "encodes"
    rules["number_said r ≡ D"] = "judges_line"
    rules["read_said r ≡ D"] = "reads_hex"
    rules["write_said r ≡ D"] = "writes_hex"
    rules["outcome_said r ≡ D"] = "reads_schedule"
    rules["lines_left r ≡ D"] = "yields"
    rules["text_left r ≡ D"] = "holds_text"
    rules["Leaves D r x′"] = "leaves"
    rules["Leaves D (cored x′ r x) x′"] = "leaves_lent"
    rules["Changes D x x x x x r x′"] = "changes"
    rules["Executes D r x′"] = "executes"
    rules["Ticks D r x′"] = "ticks"
    rules["Ticks D (in_place r x′) x′"] = "ticks_in_place"
    rules["Runs D r x′"] = "runs"
    rules["TicksIn D r x′ x′"] = "ticks_in"
    rules["TicksIn D (said_tick r) x′ x′"] = "ticks_left"
    rules["RunsIn D (said_run r) (said_count r) x′ x′"] = "runs_left"
    rules["Writes D (said_write r) x′"] = "writes_said"
    rules["Prints D x r x′"] = "prints"
    rules["Gains x D x′"] = "gains"
    rules["Tells D r x′ x′"] = "tells"
    rules["TellsTicks D r x′ x′ x′"] = "tells_ticks"
    # where what the forms are written in is defined
    homes["◌≡◌"] = "Rattle.std.specs.Prelude"
    homes["Leaves"] = "Rattle.cores.specs.State"
    homes["cored"] = "Rattle.effects.specs.Parts"
    homes["Changes"] = "Rattle.registers.specs.Registers"
    homes["Executes"] = "Rattle.execute.specs.Execute"
    homes["Ticks"] = homes["in_place"] = "Rattle.tick.specs.Tick"
    homes["Runs"] = "Rattle.run.specs.Run"
    homes["TicksIn"] = homes["RunsIn"] = homes["said_tick"] = homes["said_run"] = homes["said_count"] = "Rattle.run.specs.Over"
    homes["Writes"] = homes["said_read"] = homes["said_write"] = "Rattle.snapshot.specs.Snapshot"
    homes["Prints"] = "Rattle.page.specs.Page"
    homes["Gains"] = "Rattle.page.specs.Gains"
    homes["said_register"] = homes["said_set"] = "Rattle.cores.specs.State"
    homes["said_lack"] = "Rattle.execute.specs.Needs"
    homes["said"] = "Rattle.encode.specs.Encode"
    homes["number_said"] = "Rattle.hex_line.specs.Line"
    homes["lines_left"] = homes["text_left"] = homes["GivesLine"] = "Rattle.hex_line.specs.Left"
    homes["read_said"] = "Rattle.intel_hex.specs.Reading"
    homes["write_said"] = "Rattle.intel_hex.specs.Writing"
    homes["outcome_said"] = "Rattle.schedule_text.specs.Reading"
    homes["Tells"] = homes["TellsTicks"] = "Rattle.host.specs.Host"
}

function fault(text) { print FILENAME ": " (inside ? name : $0) ": " text > "/dev/stderr" }

# splits a text at the blanks that stand in no parentheses
function arguments(text, parts,    count, depth, at, c) {
    split("", parts)
    count = 1
    for (at = 1; at <= length(text); at++) {
        c = substr(text, at, 1)
        depth += (c == "(") - (c == ")")
        if (c == " " && depth == 0) count++
        else parts[count] = parts[count] c
    }
    return count
}

function form(text,    parts, count, at, found) {
    count = arguments(text, parts)
    if (parts[2] == "≡") return letter(parts[1]) " ≡ " definition(substr(text, index(text, " ≡ ") + length(" ≡ ")))
    found = parts[1]
    for (at = 2; at <= count && parts[at] != "≡"; at++) found = found " " letter(parts[at])
    if (at <= count) return found " ≡ " definition(substr(text, index(text, " ≡ ") + length(" ≡ ")))
    found = parts[1]
    at = 2
    if (parts[1] == "Gains") found = found " " letter(parts[at++])
    found = found " " definition(parts[at++])
    for (; at <= count; at++) found = found " " letter(parts[at])
    return found
}

function letter(part,    parts, count, at, found) {
    if (part == "result") return "r"
    if (part ~ /^[A-Za-z_][A-Za-z0-9_]*(\.old|\.now)?$/) return "x"
    if (part ~ /^[A-Za-z_][A-Za-z0-9_]*\.new$/) return "x′"
    if (part !~ /^\((in_place|cored|said_write|said_tick|said_run|said_count) [^()]*\)$/) return "?"
    count = arguments(substr(part, 2, length(part) - 2), parts)
    found = parts[1]
    for (at = 2; at <= count; at++) found = found " " letter(parts[at])
    return "(" found ")"
}

# D where the text is names, numbers and sums of them, and none of them is there only after the call
function definition(text) {
    if (text ~ /\.(new|exit)/ || mentions(text, "result")) return "after"
    if (mentions(text, "_")) return "?"
    gsub(/∷/, "", text)
    return text ~ /^[]A-Za-z0-9_ .,;=()[{}+*-]+$/ ? "D" : "?"
}

function mentions(text, word) {
    gsub(/[^A-Za-z0-9_]/, " ", text)
    return index(" " text " ", " " word " ") > 0
}

# the clause that this line is
function clause(    text, shape) {
    text = $0
    sub(/^ ensures ([A-Za-z0-9_-]+ )?\{ /, "", text); sub(/ \}$/, "", text)
    gsub(/«/, "", text); gsub(/»/, "", text)
    contract = contract (contract == "" ? "" : "; ") text
    shape = form(text)
    # nothing is handed back and nothing lent to be changed: the clause is a fact of the arguments
    if (!mentions(text, "result") && head !~ /->|&mut|&'[a-z_]+ mut/ && text !~ /\.(new|exit)/) laws = "nothing"
    else if (shape in rules) pin(text, shape)
    else if (sub(/ after/, " D", shape) && shape in rules) fault("its definition mentions the result or a buffer after the call")
    else fault("no law makes one outcome of `" text "`")
}

# the clause of an `impl From`: what the value is made from, and the value, have the names that stand behind its λ
function gives(text,    names, value) {
    names = text
    sub(/^ ghost from_gives = \{ λ /, "", names); sub(/\. .*/, "", names)
    sub(/^[^.]*\. /, "", text); sub(/ \};$/, "", text)
    split(names, value, " ")
    contract = text
    converting = 2
    if (value[2] == "_" || index(text, value[2] " ≡ ") != 1 || mentions(substr(text, length(value[2] " ≡ ")), value[2]) || form("result" substr(text, length(value[2]) + 1)) != "r ≡ D") fault("no law makes one outcome of `" text "`")
    print "| `" crate "` | `" name "` | `" text "` | equation |"
}

function pin(text, shape) {
    gsub(/[()]/, " ", text)
    pinned = pinned " " text " "
    if (shape ~ /(^|[ (])r[ )]/ && shape !~ /said_tick|said_run|lines_left/) told = 1 # other results have those numbers, and those lines, too
    if (index(", " laws ",", ", " rules[shape] ",") == 0) laws = laws (laws == "" ? "" : ", ") rules[shape]
}

function finish() {
    if (contract == "" && !broken) fault("has no ensures")
    if (head ~ /->/ && !told) fault("says nothing of its result")
    gsub(/: &mut Page<'_>/, ": \\&mut Page", head) # a buffer and a place in it, which `Gains` pins
    gsub(/-> Lines<'a>/, "-> Lines", head) # what is left of a text, which is only read
    if (head ~ /[A-Z][A-Za-z0-9_]*<'/) fault("has a struct that holds a reference, which this tool does not read")
    lent(head)
    print "| `" crate "` | `" (type == "" ? path : type "::") name "` | `" contract "` | " laws " |"
    inside = 0
}

# every lent buffer has to be pinned
function lent(head,    found) {
    gsub(/&'[a-z_]+ mut /, "\\&mut ", head); sub(/&mut self/, "self: \\&mut Self", head)
    while (match(head, /[A-Za-z0-9_]+: &mut /)) {
        found = substr(head, RSTART, RLENGTH - length(": &mut "))
        if (index(pinned, " " found ".new ") == 0) fault("says nothing of " found " afterwards")
        if (index(" " stripped(contract) " ", " " found ".now ") > 0) fault("its " found ".now is neither before the call nor after it")
        head = substr(head, 1, RSTART - 1) substr(head, RSTART + RLENGTH)
    }
    if (head ~ /&mut/) fault("lends something that this tool does not read")
}

# the text with a blank for whatever is in no name and no path
function stripped(text) {
    gsub(/[^A-Za-z0-9_.]/, " ", text)
    return text
}

# what a whole `ghost use` brings: a name of the forms comes from its home, and under its own name
function bring(text,    from, names, count, at, name) {
    sub(/^ ?ghost use /, "", text)
    from = text; sub(/\.\{.*/, "", from)
    sub(/^[^{]*\{/, "", text); sub(/\}.*/, "", text); sub(/;$/, "", text)
    count = split(text, names, ",")
    for (at = 1; at <= count; at++) {
        gsub(/^ +| +$/, "", names[at])
        name = names[at]; sub(/.*( as |\.)/, "", name)
        if (name in homes && (name != names[at] || from != homes[name])) fault("its " name " is not that of " homes[name])
    }
}

# a free function is public where each module on the way from lib.rt to its file is, or where lib.rt exports it by name; a method is public with its type
function exported(    count, at, above) {
    path = ""
    if (type != "" || below == "lib") return 1
    if (hands_on(name)) return 1
    count = split(below, modules, "/")
    above = "lib"
    for (at = 1; at <= count; at++) {
        if (!says(above, "pub mod " modules[at] ";")) return 0
        path = path modules[at] "::"
        above = (at == 1 ? "" : above "/") modules[at]
    }
    return 1
}

# whether a file of this crate has this line, a comment behind it left out
function says(file, text,    line, found) {
    file = root file ".rt"
    while ((getline line < file) > 0) {
        sub(/[ \t]*(\/\/.*)?$/, "", line)
        if (line == text) found = 1
    }
    close(file)
    return found
}

# whether lib.rt exports this thing of the module of the file: `pub use MODULE::NAME;`, or among others in braces
function hands_on(thing,    file, line, text, found) {
    file = root "lib.rt"
    while ((getline line < file) > 0) {
        sub(/\/\/.*/, "", line)
        if (line ~ /^pub use /) text = ""
        text = text line
        if (index(text, "pub use " below "::") == 1 && line ~ /;/ && !mentions(text, "as") && mentions(substr(text, length("pub use " below "::")), thing)) found = 1
    }
    close(file)
    return found
}

# whether the text exports a module of this crate, or, in lib.rt, things of a module beside it by their own names, which are no modules themselves
function plain_export(text,    names, count, at, module) {
    if (text !~ /^pub (mod [a-z0-9_]+|use [a-z0-9_]+::([A-Za-z0-9_]+|\{[A-Za-z0-9_, ]+\}));$/) return 0
    sub(/;$/, "", text)
    if (sub(/^pub mod /, "", text)) return there((below == "lib" ? "" : below "/") text)
    sub(/^pub use /, "", text)
    module = text; sub(/::.*/, "", module)
    sub(/.*::/, "", text); gsub(/[{}, ]+/, " ", text)
    count = split(text, names, " ")
    for (at = 1; at <= count; at++) if (names[at] ~ /^(as|self)$/ || there(module "/" names[at])) return 0
    return below == "lib" && there(module)
}

# whether a module of this path has a file
function there(module,    file, line, found) {
    file = root module ".rt"
    found = (getline line < file) >= 0
    close(file)
    return found
}

# the folder src/ with its path, and the file's path below it
FNR == 1 { root = below = FILENAME; sub(/\/src\/.*/, "/src/", root); sub(/.*\/src\//, "", below); sub(/\.rt$/, "", below) }
{ sub(/\/\/.*/, ""); gsub(/[ \t]+/, " "); sub(/ $/, "") }
/\/\*|\*\// { fault("a comment by /* and */, which this tool does not read") }
/^ ?pub (use|mod) / { export = ""; exporting = 1 }
exporting { export = export $0 }
exporting && /[;{]$/ && !/::\{$/ {
    exporting = 0
    if (!plain_export(export)) fault("an export that this tool does not read")
}
/^ ?(pub )?mod [a-z0-9_]+ \{/ { fault("a module in a file, which this tool does not read") }
/^ ?pub struct [A-Za-z0-9_]+</ && !/^pub struct (Page|Lines)<'a> \{$/ { fault("a struct that holds a reference, which this tool does not read") }
/^impl<'a> Iterator for Lines<'a> \{$/ { # its `next` is pinned by what it gives
    if (inside) finish()
    name = "Iterator for Lines"
    converting = inside = 1
    next
}
converting && /^ ghost use / { brought = ""; bringing = 1 }
converting && bringing { brought = brought $0 }
converting && bringing && /;$/ { bring(brought); bringing = 0 }
converting == 1 && /^ ghost next_gives = \{ GivesLine \};$/ {
    converting = 2
    print "| `" crate "` | `" name "` | `GivesLine` | gives_line |"
}
/^impl From<[A-Za-z0-9_:]+> for [A-Za-z0-9_]+ \{$/ {
    if (inside) finish()
    name = $0; sub(/^impl /, "", name); sub(/ \{$/, "", name)
    converting = inside = 1
    next
}
converting == 1 && /^ ghost from_gives = \{ λ [a-z_]+ [a-z_]+\. .* \};$/ { gives($0) }
converting && /^}/ {
    if (converting == 1) fault("says nothing of what it gives, as in `ghost from_gives = { .. };`")
    converting = inside = 0
}
converting { next }
/^ ?(pub )?trait |^ ?impl.* for / { fault("a trait, whose functions this tool does not read") }
/^ ?ghost use / { brought = ""; bringing = 1 }
bringing { brought = brought $0 }
bringing && /;$/ { bring(brought); bringing = 0 }
/^impl/ { type = $0; sub(/^impl(<[^>]*>)? */, "", type); sub(/[ <{].*/, "", type) }
/^}/ { type = "" }
/^ ?pub ((const|unsafe|extern "C") )*fn / {
    if (inside) finish()
    head = contract = laws = pinned = ""; told = broken = 0
    name = $0; sub(/.*fn /, "", name); sub(/[(<].*/, "", name)
    inside = exported()
}
inside && /^ ensures ([A-Za-z0-9_-]+ )?\{ .* \}$/ && !/\} *(ensures|requires)/ { clause(); next }
inside && mentions($0, "ensures") { fault("its clause is not the whole of a line, as in `ensures { .. }`"); broken = 1; next }
inside && mentions($0, "requires") { fault("has a requires"); next }
inside && mentions($0, "ghost") { fault("has a ghost value, which this tool does not read"); next }
inside { head = head $0 }
# the body begins
inside && /\{/ { finish() }
END { if (inside) finish() }
