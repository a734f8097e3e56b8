#!/bin/sh
# board.sh TARGET [COUNT]: tries the archive that bin/archive makes for TARGET. host/test.c, host/feed_test.c and host/gateway.c are built
# against it and held to the stored streams, host/distance_test.c to nextafter, and the gateway answers COUNT requests of each kind (1,000,000
# where it is not said) as the proved program does. They run by themselves where this machine is of TARGET's kind, and else under an emulator.
# What is missing is installed by apt-get.
set -eu
cd "$(dirname "$0")/.."
. host/libm.sh

die() { printf 'host/board.sh: %s\n' "$*" >&2; exit 2; }
progress() { if [ -t 2 ]; then printf 'board: %s\n' "$*" >&2; fi; }

[ $# -eq 1 ] || [ $# -eq 2 ] || die "usage: board.sh TARGET [COUNT]"
target=$1 count=${2:-1000000}
case $count in '' | *[!0-9]*) die "'$count' is no count" ;; esac
archive=$(bin/archive "$target")

# how to compile and run for the target
machine=$(uname -m)
case $target in
"$machine"-*) compile=${CC:-cc} run='' packages='gcc libc6-dev' ;;
aarch64-*) compile='aarch64-linux-gnu-gcc -static' run=qemu-aarch64 packages='gcc-aarch64-linux-gnu libc6-dev-arm64-cross qemu-user' ;;
*)
    compile='x86_64-linux-gnu-gcc -static' run=qemu-x86_64 packages='gcc-x86-64-linux-gnu libc6-dev-amd64-cross qemu-user'
    ;;
esac
out=target/board/$target
mkdir -p "$out"
# shellcheck disable=SC2086
works() {
    printf '#include <stdio.h>\nint main(void) { return puts("") < 0; }\n' | $compile -x c -o "$out/probe" - 2>"$out/said" &&
        $run "$out/probe" >/dev/null 2>"$out/said"
}
# shellcheck disable=SC2086
works || { { apt-get update && apt-get install -y $packages; } >&2 && works; } || {
    cat "$out/said" >&2
    die "no program for $target can be built and run here; it takes the Debian packages $packages"
}
native=${CC:-cc}
command -v "${native%% *}" >/dev/null || { apt-get update && apt-get install -y gcc libc6-dev; } >&2 || die "no C compiler here (the Debian packages gcc and libc6-dev)"

awk -f host/kinds.awk kinds.txt >"$out/kinds.h"
flags="-std=c99 -D_POSIX_C_SOURCE=200809L -O2 -Wall -Wextra -Wpedantic -Iinclude -I$out"
# shellcheck disable=SC2086
for name in test feed_test gateway; do $compile $flags -o "$out/$name" "host/$name.c" "$archive"; done
# shellcheck disable=SC2086
$compile $flags -o "$out/distance_test" host/distance_test.c "$archive" "$(libm_of $compile)"
# shellcheck disable=SC2086
$native $flags -o "$out/requests" host/requests.c

# the stored streams
progress "the stored streams"
pairs='crates/answers/stdin crates/answers/stdout'
for requests in cases/*.requests; do pairs="$pairs $requests ${requests%requests}answers"; done
# shellcheck disable=SC2086
for name in test feed_test; do $run "$out/$name" $pairs || die "the entries for $target do not answer as stored"; done
$run "$out/distance_test" || die "the distance for $target"

# the gateway's answers are all but the closing two bytes of the program's
same() { # REQUESTS ANSWERS
    $run "$out/gateway" "$1" >"$out/got" 2>"$out/said" || true
    head -c -2 "$2" | cmp - "$out/got" || die "the gateway for $target differs on $1"
}
# shellcheck disable=SC2086
set -- $pairs
while [ $# -gt 0 ]; do
    same "$1" "$2"
    shift 2
done

# many patterns
progress "$count requests of each kind"
"$out/requests" 1 "$count" >"$out/many.requests"
bin/answers <"$out/many.requests" >"$out/many.answers"
[ "$(tail -c 2 "$out/many.answers" | od -An -tx1 | tr -d ' ')" = ff00 ] || die "the proved program did not answer all"
same "$out/many.requests" "$out/many.answers"
bytes=$(wc -c <"$out/got")
rm -f "$out/many.requests" "$out/many.answers" "$out/got"
echo "board: $target answers the stored streams, and $count requests of each kind as the proved program ($((bytes)) bytes)"
