# kinds.awk: kinds.txt as a table for C. A line a kind: KIND(number, name, bytes of the body, bytes of all values, bytes of the tail).
# A program defines KIND and includes the lines.
{ sub(/#.*/, "") }
NF == 0 { next }
NF != 5 {
    print "kinds.awk: line " NR " has " NF " words, not 5" >"/dev/stderr"
    exit 1
}
{
    values = 0
    for (i = split($4, width, "+"); i > 0; i--) values += width[i]
    printf "KIND(%d, %s, %d, %d, %d)\n", $1, $2, $3, values, $5 == "-" ? 0 : split($5, tail, "+")
}
