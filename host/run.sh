#!/bin/sh
# run.sh [WRAPPER ...]: proves and builds the library of C entries, which has to need no name from outside, builds the host and the tests
# against it, and runs them, under WRAPPER where one is named (valgrind). Then tries what bin/install installs. host/compiler.sh says what it is
# compiled and run by.
# shellcheck disable=SC2086 # cc, cxx, run and flags are words
set -eu
cd "$(dirname "$0")/.."
. host/compiler.sh
. host/libm.sh
run="$* $run"

(cd crates/entries_c && rt lib) </dev/null >&2
library=crates/entries_c/out/libentries_c.a
$nm -u "$library" >"$work/outside" || die "nm does not read the library"
outside=$(sed -n 's/^ *[Uvw] //p' "$work/outside" | tr '\n' ' ')
[ -z "$outside" ] || die "the library asks a host for $outside, and it has to ask for nothing"
out=target/host
mkdir -p "$out"
awk -f host/kinds.awk kinds.txt >"$out/kinds.h"

# the programs
build() { # NAME OPTION-OR-FILE..
    name=$1
    shift
    $cc $flags -o "$out/$name" "$@" "$library"
}
flags="-O2 -Wall -Wextra -Wpedantic -Wconversion -Wshadow -Werror -Iinclude -I$out"
posix=-D_POSIX_C_SOURCE=200809L
build test -std=c99 host/test.c
build feed_test -std=c99 host/feed_test.c
build distance_test -std=c99 host/distance_test.c "$(libm_of $cc)"
build header_c99 -std=c99 host/header.c
build header_c11 -std=c11 host/header.c
$cxx $flags -std=c++11 -Wold-style-cast -x c++ -c -o "$out/header.o" host/header.c
build header_cxx "$out/header.o"
build gateway -std=c99 $posix host/gateway.c
build flaky_gateway -std=c99 $posix -Wl,--wrap=read,--wrap=write host/gateway.c host/flaky.c
build serial -std=c99 $posix host/serial.c
build flaky_serial -std=c99 $posix -Wl,--wrap=read,--wrap=write host/serial.c host/flaky.c
build late_serial -std=c99 $posix -Wl,--wrap=read,--wrap=pselect host/serial.c host/late.c
build line_test -std=c99 -D_XOPEN_SOURCE=700 host/line_test.c

# the entries, and the header from C and C++
pairs='crates/answers/stdin crates/answers/stdout'
for requests in cases/*.requests; do pairs="$pairs $requests ${requests%requests}answers"; done
$run "$out/test" $pairs || die "the entries"
$run "$out/feed_test" $pairs || die "the feed"
$run "$out/distance_test" || die "the distance"
for name in header_c99 header_c11 header_cxx; do $run "$out/$name" || die "$name"; done

# the host on the stored streams, also where signals cut its reads and writes short: it writes what is stored but for the closing bytes, and
# its status and its last line tell the stop code
ends() { # STATUS WHAT COMMAND..
    wanted=$1 what=$2 status=0
    shift 2
    "$@" 2>"$work/said" || status=$?
    [ "$status" -eq "$wanted" ] || { cat "$work/said" >&2; die "$host, $what: status $status, not $wanted"; }
}
misused() { # WORD..
    ends 2 "the words '$*'" $run "$out/$host" "$@"
    grep -q '^usage: ' "$work/said" || die "$host with the words '$*' does not tell the usage"
}
replay() { # GATEWAY REQUESTS ANSWERS
    code=$(tail -c 1 "$3" | od -An -tu1 | tr -d ' ')
    ends $((code != 0)) "$2" $run "$out/$1" "$2" >"$out/answers"
    head -c -2 "$3" | cmp - "$out/answers" || die "$1 differs on $2"
    grep -q "(code $code), .* $(wc -c <"$out/answers") bytes written" "$work/said" || die "$1 tells other numbers on $2: $(cat "$work/said")"
}
host=gateway
for gateway in gateway flaky_gateway; do
    replay $gateway crates/answers/stdin crates/answers/stdout
    for requests in cases/*.requests; do replay $gateway "$requests" "${requests%requests}answers"; done
done

# and where something is wrong around it: no such file, a folder, a full device, an output that nobody reads, another command; an unknown kind
# ends it while the input is still open
gateway="$run $out/gateway"
ends 2 "no such file" $gateway "$work/none"
ends 2 "a folder as input" $gateway "$work"
ends 2 "a full device" $gateway cases/kinds.requests >/dev/full
{ ends 2 "a closed pipe" $gateway cases/long.requests && : >"$work/told"; } | :
[ -e "$work/told" ] || die "gateway, a closed pipe"
misused -x
misused cases/cut.requests cases/cut.requests
mkfifo "$work/pipe"
exec 3<>"$work/pipe"
printf '\0' >&3
ends 1 "an unknown kind on an open pipe" timeout 60 $gateway <"$work/pipe"
exec 3>&-

# the host of a serial line, over a terminal whose other side is the test's; also where signals cut its reads and writes short, and where one
# comes at the worst time. One that hangs is ended, and fails
host=serial
for serial in serial flaky_serial; do timeout 300 $run "$out/line_test" $pairs -- $run "$out/$serial" || die "$serial over a line"; done
timeout 300 $run "$out/line_test" -l $pairs -- $run "$out/late_serial" || die "late_serial over a line"
ends 2 "no such device" $run "$out/serial" "$work/none"
ends 2 "no terminal" $run "$out/serial" cases/kinds.requests
grep -q ': no terminal$' "$work/said" || die "serial does not tell that a file is no terminal"
misused
misused -x "$work/none"
misused -s
misused -s 9600
misused "$work/none" "$work/none"
misused -s 9601 "$work/none"
grep -q 'no speed: 9601$' "$work/said" || die "serial does not tell that a speed is none"

echo "host: the entries, the feed, the header and the hosts answer as stored, and the distance goes by nextafter"

host/install_test.sh
