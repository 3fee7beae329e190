# Reads crates.txt and then every file of Rattle and antt, and prints what nobody uses.

# keeps that this crate uses a path of antt, as Rattle.tick.specs.Tick.Ticks, and all that the path lies in
function use_path(path,    owner) {
    sub(/^Rattle\./, "", path)
    owner = path; sub(/\..*/, "", owner)
    used[crate, owner] = 1
    do used[path] = 1; while (sub(/\.[^.]*$/, "", path))
}

function use_crates(text) {
    while (match(text, /[A-Za-z0-9_]+::/)) {
        used[crate, substr(text, RSTART, RLENGTH - 2)] = 1
        text = substr(text, RSTART + RLENGTH)
    }
}

# a lemma or a definition that an attribute of the code names, as crate::proofs::Wraps::added
function use_attributes(text,    path) {
    while (match(text, /[a-z0-9_]+::(proofs|specs)::[A-Za-z0-9_:]+/)) {
        path = substr(text, RSTART, RLENGTH)
        text = substr(text, RSTART + RLENGTH)
        sub(/^crate::/, crate "::", path); gsub(/::/, ".", path)
        use_path(path)
    }
}

# a file of specs/ or proofs/ that others have to use: not the root, nor what is written of the proof of a function
function module_of(file) {
    if (file !~ /^crates\/[^\/]*\/(specs|proofs)\// || file ~ /\/Lib\.antt$|\/proofs\/.*\/(Proof|Invariants|Answers)\.antt$/) return ""
    sub(/^crates\//, "", file); sub(/\.antt$/, "", file); gsub(/\//, ".", file)
    return file
}

FILENAME == "crates.txt" {
    reasons = $0; sub(/^[^#]*/, "", reasons)
    sub(/#.*/, "")
    if (split($0, side, ":") < 1) next
    # the name, behind which a static library has a word of its own
    crate = side[1]; sub(/^[ \t]+/, "", crate); sub(/[ \t].*/, "", crate)
    if (crate == "") next
    crates[++count] = crate; needs[crate] = side[2]
    # a dependency that is needed unmentioned, as for a local's type, has its reason behind the line: '# DEP: reason'
    while (match(reasons, /[a-z0-9_]+:/)) {
        used[crate, substr(reasons, RSTART, RLENGTH - 1)] = 1
        reasons = substr(reasons, RSTART + RLENGTH)
    }
    next
}
FNR == 1 {
    split(FILENAME, part, "/"); crate = part[2]
    module = module_of(FILENAME)
    if (module != "") { files[++modules] = FILENAME; names[modules] = module }
}
{ sub(FILENAME ~ /\.rt$/ ? "//.*" : "--.*", "") }
FILENAME ~ /\.rt$/ { use_crates($0); use_attributes($0) }
{
    text = $0
    while (match(text, /Rattle\.[A-Za-z0-9_.]+/)) {
        path = substr(text, RSTART, RLENGTH)
        text = substr(text, RSTART + RLENGTH)
        sub(/\.$/, "", path)
        use_path(path)
    }
}
# a theorem that a definition names is an end, and nobody has to use it
FILENAME ~ /\/proofs\// && /^pub [^ ]+ : [A-Z][A-Za-z0-9_]*$/ { used[module] = 1 }
END {
    for (n = 1; n <= count; n++) {
        total = split(needs[crates[n]], list, " ")
        for (d = 1; d <= total; d++)
            if (!((crates[n], list[d]) in used)) { print "crates.txt: " crates[n] " does not use " list[d]; found = 1 }
    }
    for (n = 1; n <= modules; n++)
        if (!(names[n] in used)) { print files[n] ": nobody uses it"; found = 1 }
    exit found
}
