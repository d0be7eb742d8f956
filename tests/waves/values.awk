# Reads a value change dump after IEEE 1364, of any tool, and prints the eleven columns of each cycle as lines of a trace.
#
#   awk -v cycles=N -f tests/waves/values.awk DUMP
#
# Variables are known by their names, whatever their codes and their order; a short vector is filled up on the left; a time that is left
# out has the values of the time before it. What is no number is printed as `?`, so that the line differs from every line of a trace.
# A dump with another timescale, another scope or another width is told, and the exit status is 1.

function fault(text) { print FILENAME ": " text >"/dev/stderr"; failed = 1 }

# the number in a vector's bits, or -1
function number(bits,    i, sum, bit) {
    for (i = 1; i <= length(bits); i++) {
        bit = substr(bits, i, 1)
        if (bit != "0" && bit != "1") return -1
        sum = sum * 2 + bit
    }
    return sum + 0
}

function shown(name) {
    if (!(name in value) || value[name] < 0) return "?"
    return sprintf(width[name] == 16 ? "%04x" : "%x", value[name])
}

# the lines of the cycles before this time
function up_to(time,    i, line) {
    if (time <= cycle) return
    line = shown(column[1])
    for (i = 2; i <= 11; i++) line = line "\t" shown(column[i])
    for (; cycle < time && cycle < cycles; cycle++) print line
}

function ended(    name) {
    if (command == "$timescale" && word[1] word[2] != "1ns") fault("the timescale is " word[1] word[2])
    if (command == "$scope") scope = scope "/" word[1] " " word[2]
    if (command == "$upscope") sub(/\/[^\/]*$/, "", scope)
    if (command == "$var") {
        name = word[4]
        sub(/\[.*/, "", name)
        if (scope != "/module ahb") fault(name " stands in the scope " scope)
        if (word[2] != width[name]) fault(name " has the width " word[2])
        coded[word[3]] = name
        declared++
    }
    command = ""
}

function change(bits, code) {
    if (code in coded) value[coded[code]] = number(bits)
    else fault("the code " code " is not declared")
}

BEGIN {
    split("HBUSREQ HLOCK HREADY HTRANS HBURST HGRANT HMASTER HMASTLOCK DECIDE GRANTED BUSREQ", column, " ")
    split("16 16 1 2 3 16 4 1 1 1 1", widths, " ")
    for (i = 1; i <= 11; i++) width[column[i]] = widths[i]
}

{
    for (i = 1; i <= NF; i++) {
        if (command != "" && $i == "$end") ended()
        else if (command != "") word[++words] = $i
        else if (vector != "") { change(substr(vector, 2), $i); vector = "" }
        else if ($i ~ /^\$(dumpvars|dumpall|dumpon|dumpoff|end)$/) continue
        else if ($i ~ /^\$/) { command = $i; words = split("", word) }
        else if ($i ~ /^#[0-9]+$/) { if (!timed++ && declared != 11) fault(declared + 0 " variables"); up_to(substr($i, 2) + 0) }
        else if ($i ~ /^[bB]/) vector = $i
        else if ($i ~ /^[01xXzZ]./) change(substr($i, 1, 1), substr($i, 2))
        else fault("what is " $i "?")
    }
}

END {
    up_to(cycles)
    exit failed
}
