# table.awk: a summary as tables in Markdown, one of the port beside the Rust, one of the port beside an earlier one, one of the feed beside
# the batch, and two of records of erf, of erfc and of both, by the size of the argument: beside each other, and beside an earlier port's.
/^#/ { sub(/^# /, ""); head = $0; next }
{
    if (!($1 in seen)) { seen[$1] = 1; names[++count] = $1 }
    spread = $3 == $5 ? $4 : sprintf("%s (%s to %s)", $4, $3, $5)
    if ($2 == "ratio") ratio[$1] = spread
    else if ($2 == "change") { change[$1] = spread; changes = 1 }
    else if ($2 ~ /^change_/) { change[$1, substr($2, 8)] = spread; before = 1 }
    else { number[$1, $2] = $3; if ($2 == "glibc" || $2 == "musl") others = 1; if ($2 == "feed") feeds = 1 }
}
function label_of(name) {
    return name == "batch" ? "batch of all kinds, a record" : name == "erf_records" ? "batch of erf against a loop, a record" : name
}
function range_of(name,    ends) { return split(name, ends, ":") == 3 ? ends[2] " to " ends[3] : "all" }
function show(name, library) { return ((name, library) in number) ? number[name, library] : "" }
END {
    if (head != "") print head "\n"
    print "| | port | Rust | port / Rust |" (others ? " glibc | musl |" : "")
    print "|---|---|---|---|" (others ? "---|---|" : "")
    for (i = 1; i <= count; i++) {
        n = names[i]
        if ((n, "feed") in number || (n, "erf_erfc") in number) continue
        printf "| %s | %s | %s | %s |", label_of(n), show(n, "port"), show(n, "Rust"), ratio[n]
        if (others) printf " %s | %s |", show(n, "glibc"), show(n, "musl")
        print ""
    }
    if (changes) print "\n| | earlier | port | port / earlier |\n|---|---|---|---|"
    for (i = 1; i <= count; i++) {
        n = names[i]
        label = n == "erf_records" ? "batch of erf, a record" : label_of(n)
        if (n in change) printf "| %s | %s | %s | %s |\n", label, show(n, "earlier"), show(n, "port"), change[n]
    }
    if (feeds) print "\n| the feed, a record | feed | batch | feed / batch |\n|---|---|---|---|"
    for (i = 1; i <= count; i++) {
        n = names[i]
        if (!((n, "feed") in number)) continue
        records = n ~ /^erf/ ? "erf" : "all kinds"
        pieces = n ~ /4k$/ ? "in pieces of 4,096 bytes" : n ~ /9$/ ? "in pieces of 9 bytes" : "byte by byte"
        printf "| %s %s | %s | %s | %s |\n", records, pieces, show(n, "feed"), show(n, "batch"), ratio[n]
    }
    for (i = 1; i <= count; i++) if ((names[i], "erf_erfc") in number) sizes[++ranges] = names[i]
    if (ranges) print "\n| a record, by the size | erf | erfc | both | both / erfc |\n|---|---|---|---|---|"
    for (i = 1; i <= ranges; i++) {
        n = sizes[i]
        printf "| %s | %s | %s | %s | %s |\n", range_of(n), show(n, "erf"), show(n, "erfc"), show(n, "erf_erfc"), ratio[n]
    }
    if (before) print "\n| a record, by the size | erf, earlier | erf | erf / earlier | erfc, earlier | erfc | erfc / earlier |\n|---|---|---|---|---|---|---|"
    for (i = 1; before && i <= ranges; i++) {
        n = sizes[i]
        printf "| %s | %s | %s | %s |", range_of(n), show(n, "earlier_erf"), show(n, "erf"), change[n, "erf"]
        printf " %s | %s | %s |\n", show(n, "earlier_erfc"), show(n, "erfc"), change[n, "erfc"]
    }
}
