# plot.awk: the kept summaries of before and now as bars in SVG, a group for each function. The feed, the error functions by size and an
# earlier port have none.
/^#/ { next }
$2 == "ratio" || $2 == "change" || $2 == "earlier" || $2 == "feed" || $2 == "batch" || $1 ~ /^both/ { next }
{
    bar = $2
    if (FILENAME ~ /before$/) { if ($2 != "port") next; bar = "port before" }
    if (!($1 in seen)) { seen[$1] = 1; names[++count] = $1 }
    time[$1, bar] = $3
    if (!(bar in kept)) kept[bar] = 1
    if ($3 > most) most = $3
}
END {
    split("port before,port,Rust,glibc,musl", library, ",")
    split("#a9cbe3,#1b6ca8,#d9822b,#7a7a7a,#b5b5b5", colour, ",")
    bar = 13; group = 6 * bar; left = 50; top = 40; height = 260
    width = left + count * group + 20
    printf "<svg xmlns=\"http://www.w3.org/2000/svg\" width=\"%d\" height=\"%d\" font-family=\"sans-serif\" font-size=\"12\">\n", width, top + height + 40
    print "<rect width=\"100%\" height=\"100%\" fill=\"white\"/>"
    step = most > 100 ? 50 : (most > 40 ? 20 : 10)
    for (t = 0; t <= most; t += step) {
        y = top + height - height * t / most
        printf "<line x1=\"%d\" y1=\"%.1f\" x2=\"%d\" y2=\"%.1f\" stroke=\"#ddd\"/>\n", left, y, width - 10, y
        printf "<text x=\"%d\" y=\"%.1f\" text-anchor=\"end\">%d</text>\n", left - 6, y + 4, t
    }
    printf "<text x=\"%d\" y=\"%d\">ns a call</text>\n", 4, top - 20
    x = left + 80
    for (l = 1; l <= 5; l++) {
        if (!(library[l] in kept)) continue
        printf "<rect x=\"%d\" y=\"%d\" width=\"12\" height=\"12\" fill=\"%s\"/><text x=\"%d\" y=\"%d\">%s</text>\n", x, top - 30, colour[l], x + 16, top - 20, library[l]
        x += 34 + 8 * length(library[l])
    }
    for (i = 1; i <= count; i++) {
        at = left + (i - 1) * group + 8
        for (l = 1; l <= 5; l++) {
            if (!((names[i], library[l]) in time)) continue
            h = height * time[names[i], library[l]] / most
            printf "<rect x=\"%d\" y=\"%.1f\" width=\"%d\" height=\"%.1f\" fill=\"%s\"/>\n", at, top + height - h, bar - 2, h, colour[l]
            at += bar
        }
        label = names[i]
        sub(/_records/, " records", label)
        printf "<text x=\"%d\" y=\"%d\" text-anchor=\"middle\">%s</text>\n", left + (i - 1) * group + group / 2 - 4, top + height + 18, label
    }
    print "</svg>"
}
