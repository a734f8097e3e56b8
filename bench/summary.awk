# summary.awk: lines RUN WHAT LIBRARY NUMBER to lines WHAT LIBRARY MEDIAN and WHAT ratio LEAST MEDIAN MOST, of the port to the Rust, of the feed
# to the batch, or of records of both error functions to those of erfc, run by run; and WHAT change LEAST MEDIAN MOST, of the port to the
# earlier one, and change_erf and change_erfc of their records. The ratios have two places, or as many as `places` says.
function add(what, column, number) {
    if (!((what, column) in many)) many[what, column] = 0
    list[what, column, ++many[what, column]] = number
}
function sorted(what, column,    i, j, n, t) {
    n = many[what, column]
    for (i = 1; i <= n; i++) one[i] = list[what, column, i] + 0
    for (i = 2; i <= n; i++) for (j = i; j > 1 && one[j - 1] > one[j]; j--) { t = one[j]; one[j] = one[j - 1]; one[j - 1] = t }
    return n
}
function median(n) { return n % 2 ? one[(n + 1) / 2] : (one[n / 2] + one[n / 2 + 1]) / 2 }
function quotient(what, column,    n) {
    n = sorted(what, column)
    if (n > 0) printf "%s %s " ratio " " ratio " " ratio "\n", what, column, one[1], median(n), one[n]
}
{
    if (!($2 in seen)) { seen[$2] = 1; names[++count] = $2 }
    add($2, $3, $4)
    if ($3 == "port" || $3 == "feed") ours[$1, $2] = $4
    if ($3 == "Rust" || $3 == "batch") add($2, "ratio", ours[$1, $2] / $4)
    if ($3 == "earlier") add($2, "change", ours[$1, $2] / $4)
    records[$1, $2, $3] = $4
    if ($3 == "erf_erfc") add($2, "ratio", $4 / records[$1, $2, "erfc"])
    if ($3 ~ /^earlier_/) add($2, "change" substr($3, 8), records[$1, $2, substr($3, 9)] / $4)
}
END {
    if (places == "") places = 2
    ratio = "%." places "f"
    libraries = split("port Rust earlier glibc musl feed batch erf erfc erf_erfc earlier_erf earlier_erfc", library, " ")
    for (i = 1; i <= count; i++) {
        for (l = 1; l <= libraries; l++) if ((names[i], library[l]) in many) { n = sorted(names[i], library[l]); printf "%s %s %.1f\n", names[i], library[l], median(n) }
        quotient(names[i], "ratio")
        quotient(names[i], "change")
        quotient(names[i], "change_erf")
        quotient(names[i], "change_erfc")
    }
}
