# Turns `objdump -t -s -r` of an object into one line for each function cuy_..: its name, and the machine code of it and of everything that
# it reaches in the object, as bytes and relocations. Two lines are equal only where the code is. Sections are numbered as they are
# reached, so that names of functions within and places in the object do not count; what lies outside is named. A constant of a section
# that many functions share (.rodata.cst16) stands for itself. `side` names the object: a target that can't be told is never equal.
function number(hex,    x, i) {
    for (i = 1; i <= length(hex); i++) x = 16 * x + index("0123456789abcdef", substr(hex, i, 1)) - 1
    return x
}
function numbered(section) {
    if (!(section in place)) { place[section] = ++reached; at[reached] = section }
    return place[section]
}
# What a relocation points to: a name outside, a constant, or a section with the place in it.
function target(value,    name, more, section, size) {
    name = value; more = ""
    if (match(value, /[-+]0x[0-9a-f]+$/)) { name = substr(value, 1, RSTART - 1); more = substr(value, RSTART) }
    if (name in twice) return "one of several " name " of the side " side
    section = section_of[name]
    if (section == "" || section == "*UND*") return name more
    if (name != section && match(section, /\.cst[0-9]+$/)) {
        size = substr(section, RSTART + 4) + 0
        return "constant " substr(bytes[section], 1 + 2 * size * int(number(value_of[name]) / size), 2 * size) " " number(value_of[name]) % size more
    }
    return numbered(section) " " value_of[name] more
}
function code(name,    text, i, k, section) {
    split("", place); split("", at); reached = 0
    text = numbered(section_of[name]) " " value_of[name]
    for (i = 1; i <= reached; i++) {
        section = at[i]
        text = text " | " bytes[section]
        for (k = 1; k <= relocations[section]; k++) text = text " ; " kind[section, k] " " target(points_to[section, k])
    }
    return text
}

/^SYMBOL TABLE:/ { mode = "symbols"; next }
/^RELOCATION RECORDS FOR \[/ { mode = "relocations"; here = substr($0, 25, length($0) - 26); next }
/^Contents of section / { mode = "bytes"; here = substr($0, 21, length($0) - 21); next }
mode == "symbols" && split($0, half, "\t") == 2 {
    name = substr(half[2], 18); sub(/^\.(hidden|protected|internal) /, "", name)
    section = substr(half[1], 26); value = substr(half[1], 1, 16)
    if (name in section_of && section_of[name] " " value_of[name] != section " " value) twice[name]
    section_of[name] = section; value_of[name] = value
    if (name ~ /^cuy_/ && section != "*UND*" && half[1] ~ /^[0-9a-f]+ g/) functions[++count] = name
}
mode == "relocations" && match($0, / R_[A-Z0-9_]+ +/) {
    kind[here, ++relocations[here]] = substr($0, 1, RSTART + RLENGTH - 1)
    points_to[here, relocations[here]] = substr($0, RSTART + RLENGTH)
}
mode == "bytes" && /^ [0-9a-f]+ / {
    sub(/^ [0-9a-f]+ /, ""); line = substr($0, 1, 35); gsub(/ /, "", line)
    bytes[here] = bytes[here] line
}
END { for (k = 1; k <= count; k++) print functions[k], code(functions[k]) }
