# Runs the tables of docs/ARBITER.md as they stand there, so that they can be held to the reference.
#
#   awk -v out=DIR -f tests/tables.awk docs/ARBITER.md STIMULUS..
#
# The page has one table each under "## The phase", "## DECIDE", "## The choice" and "## The handover". A row says what follows: the first row
# whose cells all hold answers, and an empty cell holds always. The columns named ".. after", and DECIDE under its heading, are what follows; a
# column "Why" is for the reader. What the tables give for STIMULUS is written to STIMULUS.said, as a trace.
# A table whose first column is "Cycle" is a run from reset of three masters: each row is held to the tables, and run K is written to
# DIR/run.K.stim with DIR/run.K.stim.said. A table "HBUSREQ | g = 0 | g = 1 | .." is held to the walk round as many masters as it has columns for.
# Printed are the faults, one to a line (also a row that no cycle used), and then the number of rows.

function fault(text) { print FILENAME ":" FNR " " text }
function fault_in(place, text) { print place " " text }

# cells of a row of a table, without the code marks
function cells(row, cell) {
    gsub(/`/, "", row)
    sub(/^\| */, "", row)
    sub(/ *\| *$/, "", row)
    return split(row, cell, / *\| */)
}

function hex(text,    i, value) {
    for (i = 1; i <= length(text); i++) value = value * 16 + index("0123456789abcdef", substr(text, i, 1)) - 1
    return value
}
function bit(mask, i) { return int(mask / 2 ^ i) % 2 }

# "the first requester met walking g+1, g+2, .. around and ending at g itself"
function walk(n, from, mask,    k) {
    for (k = 1; k <= n; k++) if (bit(mask, (from + k) % n)) return (from + k) % n
}

function holds(cell, value,    alternatives, alternative, i) {
    alternatives = split(cell, alternative, / or /)
    for (i = 1; i <= alternatives; i++)
        if (alternative[i] == value || alternative[i] == "Fixed k" && value ~ /^Fixed/ || alternative[i] == "not 0" && value != "0") return 1
    return alternatives == 0
}

# The first row of a table that applies to the signals of this cycle.
function applying(table,    r, c, all) {
    for (r = 1; r <= rows[table]; r++) {
        all = 1
        for (c = 1; all && c <= columns[table]; c++)
            if (title[table, c] in signal) all = holds(text[table, r, c], signal[title[table, c]])
        if (all) { used[table, r] = 1; return r }
    }
    fault("has a cycle for which \"" table "\" has no row")
    return 0
}
# What a table says of one column: of what stands as it was in `before`.
function follows(table, column, before,    said) {
    said = text[table, applying(table), at[table, column]]
    if (said == "unchanged") return before
    if (said == "g") return g
    if (said == "HLOCK of g") return bit(hlock, g)
    if (said == "the first requester after g") return walk(n, g, hbusreq)
    return said
}

function reset(masters) { n = masters; g = m = mastlock = granted = 0; phase = "Fresh" }
function state() { return g " " m " " mastlock " " granted " " phase }

# One cycle with the inputs of a line: what is shown, and the state after.
function step(line,    x, decide, shown, chosen, next_phase, next_g, next_m, next_lock) {
    split(line, x, /[ \t]/)
    hbusreq = hex(x[1])
    hlock = hex(x[2])
    signal["GRANTED"] = granted
    signal["HMASTLOCK"] = mastlock
    signal["Phase"] = phase
    signal["HREADY"] = x[3]
    signal["HTRANS"] = trans[x[4]]
    signal["HBURST"] = burst[x[5]]
    signal["HBUSREQ of m"] = bit(hbusreq, m)
    signal["HLOCK of m"] = bit(hlock, m)
    signal["some HBUSREQ"] = hbusreq > 0 ? 1 : 0
    signal["m"] = m
    delete signal["DECIDE"]
    decide = follows("## DECIDE", "DECIDE", "")
    signal["DECIDE"] = decide
    shown = sprintf("%04x\t%x\t%d\t%d\t%d\t%d", 2 ^ g, m, mastlock, decide, granted, bit(hbusreq, m))
    next_phase = follows("## The phase", "Phase after", phase)
    next_g = follows("## The choice", "g after", g)
    chosen = follows("## The choice", "GRANTED after", granted)
    next_m = follows("## The handover", "m after", m)
    next_lock = follows("## The handover", "HMASTLOCK after", mastlock)
    granted = follows("## The handover", "GRANTED after", granted)
    if (granted == "by the choice") granted = chosen
    g = next_g; m = next_m; mastlock = next_lock; phase = next_phase
    return shown
}

BEGIN {
    trans[0] = "IDLE"; trans[2] = "NONSEQ"; trans[3] = "SEQ"
    burst[0] = "SINGLE"; burst[1] = "INCR"; burst[3] = "INCR4"
    split("## The phase,## DECIDE,## The choice,## The handover", tables, ",")
    for (i = 1; i <= 4; i++) known[tables[i]] = 1
}

FNR == 1 { page = FILENAME ~ /\.md$/; said = FILENAME ".said" }

# a stimulus
!page && FNR == 1 { reset($3); print "trace\t1\t" $3 >said; next }
!page { shown = step($0); print $0 "\t" shown >said; next }

# the page
/^```/ { fenced = !fenced }
fenced { next }
/^## / { heading = $0 }
!/^\|/ { kind = ""; next }
/^\|[-|]*$/ { next }
kind == "" {
    count = cells($0, cell)
    kind = "other"
    if (cell[1] == "Cycle") {
        kind = "run"
        stimulus = out "/run." ++runs ".stim"
        print "stim\t1\t3" >stimulus
        print "trace\t1\t3" >(stimulus ".said")
        reset(3)
        cycle = 0
    } else if (cell[1] == "HBUSREQ" && cell[2] == "g = 0") kind = "winners"
    else if (heading in known) {
        kind = "table"
        if (rows[heading]) fault("is a second table under its heading")
        columns[heading] = count
        for (i = 1; i <= count; i++) { title[heading, i] = cell[i]; at[heading, cell[i]] = i; if (cell[i] !~ / after$|^Why$/) signal[cell[i]] = "" }
    }
    next
}
kind == "table" {
    r = ++rows[heading]
    place[heading, r] = FILENAME ":" FNR
    if (cells($0, cell) != columns[heading]) fault("has another number of cells than its table")
    for (i = 1; i <= columns[heading]; i++) text[heading, r, i] = cell[i]
    total++
}
kind == "winners" {
    count = cells($0, cell)
    for (i = 2; i <= count; i++) if (cell[i] != walk(count - 1, i - 2, hex(cell[1]))) fault("has another winner than the walk")
    total++
}
kind == "run" {
    count = cells($0, cell)
    before = state()
    shown = step(cell[3])
    line = cell[3]
    gsub(/ /, "\t", line)
    print line >stimulus
    print line "\t" shown >(stimulus ".said")
    gsub(/\t/, " ", shown)
    if (cell[1] != cycle++) fault("is not the next cycle")
    if (cell[2] != before) fault("has the state " cell[2] ", and the tables say " before)
    if (cell[4] != shown) fault("shows " cell[4] ", and the tables say " shown)
    total++
}

END {
    for (i = 1; i <= 4; i++) {
        if (!rows[tables[i]]) print "there is no table under " tables[i]
        for (r = 1; r <= rows[tables[i]]; r++) if (!used[tables[i], r]) fault_in(place[tables[i], r], "is a row that no cycle used")
    }
    print total + 0
}
