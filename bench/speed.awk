# speed.awk points.txt COUNTS SPEED.md.in: the page docs/SPEED.md. COUNTS has lines CALL BOARD SIZE OURS PLAIN; a size is a
# number of pads, or PADSxPORTS. For the call Shared it has First by a table and what First by weights ran too, for Full First
# on as many slots as pads and First, for Squares First with squares and without, for Count and Place these and First. The
# variables compiler and calls are what the page says of these.

function commas(n) { return n < 1000 ? n : commas(int(n / 1000)) "," sprintf("%03d", n % 1000) }

# The smallest and the largest of what was added to a range.
function add(range, value) {
    if (!(range in least) || value < least[range]) least[range] = value
    if (!(range in most) || value > most[range]) most[range] = value
}
function between(range,    low, high) {
    low = sprintf("%.*f", digits(range), least[range])
    high = sprintf("%.*f", digits(range), most[range])
    return low == high ? low : low " to " high
}
# The limit for what is shared is 1.02.
function digits(of) { return of ~ /^[Ss]hared/ ? 3 : 2 }

function size_name(size,    part) { return split(size, part, "x") == 1 ? size " pads" : part[1] " pads, " part[2] " ports" }
function squared(board) { return board ~ /-squares$/ }

# The rows of some calls that were counted at these sizes, on boards with squares or without; with the call's name, or with
# the board alone.
function print_rows(calls, sizes, named, grown, squares,    many, size, k) {
    many = split(sizes, size)
    printf named ? "| call | board |" : calls == "Squares" ? "| with squares |" : "| board |"
    for (k = 1; k <= many; k++) printf " %s |", size_name(size[k])
    print grown ? " growth from 8 to 64 | of plain C |" : ""
    for (k = 1; k <= many + 1 + named + 2 * grown; k++) printf "|---"
    print "|"
    for (k = 1; k <= rows; k++)
        if (row[k] ~ "^(" calls ")" SUBSEP && squared(row[k]) == squares && ((row[k], size[1]) in ours))
            print_row(row[k], many, size, named, grown)
}
function print_row(at, many, size, named, grown,    word, k) {
    split(at, word, SUBSEP)
    sub(/-/, " ", word[1])
    printf named ? "| " word[1] " | " word[2] " |" : "| " word[2] " |"
    for (k = 1; k <= many; k++)
        printf " %s / %s = %.*f |", commas(ours[at, size[k]]), commas(plain[at, size[k]]), digits(at), ratio(at, size[k])
    if (grown) printf " %.0f times | %.0f times |", ours[at, 64] / ours[at, 8], plain[at, 64] / plain[at, 8]
    print ""
}
function ratio(at, size) { return ours[at, size] / plain[at, size] }

# What the text says of the first form at 8 to 64 pads.
function work_out_row(at, call, board) {
    if (call ~ /First|Next/) add("growth", ours[at, 64] / ours[at, 32])
    if (call ~ /First|Next/) add("small", ratio(at, 8))
    if (call ~ /First|Next/) add("small", ratio(at, 16))
    if (call == "Page") value["page-" board] = sprintf("%.2f", ours[at, 64] / ours["Next", board, 64])
    if (call == "First") add("of-points", ours[at, 64] / points[board])
    if (call == "Shared") add("of-first", ours[at, 64] / ours["First", board, 64])
    if (call == "Shared") add("a-figure", (ours["First", board, 64] - plain[at, 64]) / 64 ^ 2)
}
function work_out(    k, word, slots) {
    for (k = 1; k <= rows; k++) {
        split(row[k], word, SUBSEP)
        if (word[1] !~ /^(Slots|Full|Count|Place)/ && !squared(row[k])) work_out_row(row[k], word[1], word[2])
    }
    slots = "Slots-First" SUBSEP "random"
    value["more-pads"] = sprintf("%.2f", ours[slots, "64x128"] / ours[slots, "32x128"])
    value["more-ports"] = sprintf("%.2f", ours[slots, "16x128"] / ours[slots, "16x64"])
    value["slots-count"] = sprintf("%.0f", ours[slots, "64x128"] / 1000000)
    for (k in least) value[k] = between(k)
    value["compiler"] = compiler
    value["calls"] = commas(calls)
}

FILENAME == ARGV[1] { points[$1] = $2; next }
FILENAME == ARGV[2] {
    if (!(($1, $2) in seen)) row[++rows] = $1 SUBSEP $2
    seen[$1, $2]
    ours[$1, $2, $3] = $4
    plain[$1, $2, $3] = $5
    add(tolower($1) (squared($2) && $1 != "Squares" ? "-squares-" : "-") $3, $4 / $5)
    next
}
FNR == 1 { work_out() }
$0 == "@table@" { print_rows("First|Next|Page|Measure|Svg|Table-.*", "8 16 32 64", 1, 1, 0); next }
$0 == "@shared@" { print_rows("Shared", "8 16 32 64", 0, 0, 0); next }
$0 == "@slots@" { print_rows("Slots-.*", "32x64 64x128", 1, 0, 0); next }
$0 == "@slots-by-pads@" { print_rows("Slots-First", "8x128 16x128 32x128 64x128", 1, 0, 0); next }
$0 == "@slots-by-ports@" { print_rows("Slots-First", "16x16 16x32 16x64 16x128", 1, 0, 0); next }
$0 == "@full@" { print_rows("Full", "8x8 16x16 32x32 64x64", 0, 0, 0); next }
$0 == "@beside-points@" { print_rows("Squares", "32 64", 0, 0, 1); next }
$0 == "@beside-points-on-slots@" { print_rows("Squares", "32x64 64x128", 0, 0, 1); next }
$0 == "@squares@" { print_rows("First|Next|Page|Measure|Svg|Table-.*", "32 64", 1, 0, 1); next }
$0 == "@places@" { print_rows("Count|Place", "32 64", 1, 0, 0); next }
$0 == "@places-with-squares@" { print_rows("Count|Place", "32 64", 1, 0, 1); next }
$0 == "@texts@" { print_rows("Read-Csv", "8 64", 1, 0, 0); next }
$0 == "@texts-of-lines@" { print_rows("Read-Csv", "2339", 1, 0, 0); next }
$0 == "@squares-on-slots@" { print_rows("Slots-.*", "32x64 64x128", 1, 0, 1); next }
{
    while (match($0, /@[a-z0-9-]+@/)) {
        name = substr($0, RSTART + 1, RLENGTH - 2)
        if (!(name in value)) { print "speed.awk: what is " name "?" >"/dev/stderr"; exit 1 }
        $0 = substr($0, 1, RSTART - 1) value[name] substr($0, RSTART + RLENGTH)
    }
    print
}
