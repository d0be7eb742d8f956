# Holds quotations to the pages that they are of. A word before the files says what they are:
#
#   as=page      document 01
#   as=requests  document 02
#   as=demands   docs/PROMISES.md, whose table "The demands" has the three demands, sentence by sentence
#   as=doc       a page of docs/: text in double quotes, lines "> ..", and the first cells of a table of sentences, but
#                for those in parentheses, which are our own words
#   as=comment   a file of definitions: text in double quotes in comment lines
#
# A quotation stands in one of the first three, with white space folded and markdown's marks left out; `..` or `[..]` in
# it stands for words that are left out. A line "> .." is a whole line of document 01, or stands in document 02.
# Printed are the faults, one to a line, and then the number of quotations.

function fold(text) {
    gsub(/[*`]/, "", text)
    gsub(/[| \t]+/, " ", text)
    sub(/^ /, "", text)
    sub(/^(#+|-|>) /, "", text)
    sub(/ $/, "", text)
    return text
}

# Whether the parts of a quotation stand in a page, one after the other.
function stands(quotation, page,    parts, part, i, found) {
    parts = split(quotation, part, / ?\[?\.\.\]? ?/)
    for (i = 1; i <= parts; i++) {
        found = index(page, part[i])
        if (!found && part[i] != "") return 0
        page = substr(page, found + length(part[i]))
    }
    return 1
}

function hold(quotation, place) {
    count++
    quotation = fold(quotation)
    if (quotation == "" || !stands(quotation, page) && !stands(quotation, requests) && !stands(quotation, demands))
        print place " quotes what no page says: " quotation
}

# The text in double quotes of one more line. A quotation may go on in the next one, but not past `ended`.
function look(text,    pieces, piece, i) {
    pieces = split(text, piece, /"/)
    for (i = 1; i <= pieces; i++) {
        if (i > 1 && inside) hold(quoted, begun)
        if (i > 1 && !inside) { quoted = ""; begun = FILENAME ":" FNR }
        if (i > 1) inside = !inside
        if (inside) quoted = quoted " " piece[i]
    }
}
function ended() {
    if (inside) print begun " has a quotation without an end"
    inside = 0
}

function first_cell(cell) { split($0, cell, /\|/); return cell[2] }

FNR == 1 { ended(); fenced = 0; heading = "" }
/^## / { heading = $0 }
!/^\|/ { sentences = 0 }
/^\| sentence / { sentences = 1; next }
/^\|[-|]*$/ { next }

as == "page" { page = page fold($0) " "; lines = lines "\n" fold($0) "\n" }
as == "requests" { requests = requests fold($0) " " }
as == "demands" && sentences && heading == "## The demands" { demands = demands fold(first_cell()) " " }

as == "doc" && /^```/ { fenced = !fenced }
as == "doc" && fenced { next }
as == "doc" && /^ *$/ { ended() }
as == "doc" && /^> / {
    count++
    if (!stands("\n" fold($0) "\n", lines) && !stands(fold($0), requests)) print FILENAME ":" FNR " is not a sentence of the page"
    next
}
as == "doc" && sentences && heading != "## The demands" { if (!/^\| \(/) hold(first_cell(), FILENAME ":" FNR); next }
as == "doc" { look($0) }

as == "comment" && /^ *--/ { look(substr($0, index($0, "--") + 2)); next }
as == "comment" { ended() }

END { ended(); print count + 0 }
