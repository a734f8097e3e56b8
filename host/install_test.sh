#!/bin/sh
# install_test.sh: installs under a folder, moves it, and then uses what was installed as a stranger would: host/example.c by pkg-config, by
# CMake and by nothing but its place; and the installed programs on the stored streams and texts.
set -eu
cd "$(dirname "$0")/.."
. host/compiler.sh

tool() { # COMMAND PACKAGE..
    command -v "$1" >/dev/null || { command=$1; shift; fetch "$@"; command -v "$command" >/dev/null || die "there is no $command"; }
}
tool pkg-config pkgconf
tool cmake cmake
tool make make

bin/install "$work/made" >&2
mv "$work/made" "$work/moved"
prefix=$work/moved
mkdir "$work/example"
cp host/example.c "$work/example"

said='code 0, 9 bytes; gamma of -0.5 is -3.5449077018110322'
says() { # PROGRAM
    [ "$($run "$1")" = "$said" ] || die "$1 says '$($run "$1")', not '$said'"
}

export PKG_CONFIG_PATH="$prefix/lib/pkgconfig"
version=$(pkg-config --modversion raveltrellis)
# shellcheck disable=SC2046,SC2086
(
    cd "$work/example"
    $cc -o by_pkg_config example.c $(pkg-config --cflags --libs raveltrellis)
    $cc -o by_place -I"$prefix/include" example.c "$prefix/lib/libraveltrellis.a"
)
says "$work/example/by_pkg_config"
says "$work/example/by_place"

cat >"$work/example/CMakeLists.txt" <<END
cmake_minimum_required(VERSION 3.13)
project(example C)
find_package(raveltrellis $version REQUIRED)
add_executable(example example.c)
target_link_libraries(example PRIVATE raveltrellis::raveltrellis)
END
configure() { # FOLDER PROCESSOR
    CC=$cc cmake -S "$work/example" -B "$1" -DCMAKE_PREFIX_PATH="$prefix" -DCMAKE_SYSTEM_NAME=Linux "-DCMAKE_SYSTEM_PROCESSOR=$2"
}
{ configure "$work/build" x86_64 && cmake --build "$work/build"; } >"$work/said" 2>&1 || { cat "$work/said" >&2; die "CMake"; }
says "$work/build/example"
if configure "$work/other" riscv64 >"$work/said" 2>&1 || ! grep -q 'is for Linux on x86-64' "$work/said"; then
    die "CMake takes the library for another machine"
fi

for requests in cases/*.requests; do
    (cd / && "$prefix/bin/answers") <"$requests" | cmp - "${requests%requests}answers" || die "the installed program differs on $requests"
done
for text in cases/*.text; do
    (cd / && "$prefix/bin/lines") <"$text" | cmp - "${text%text}replies" || die "the installed program differs on $text"
done
ln -s "$prefix/bin/answers" "$work/link"
"$work/link" <cases/cut.requests | cmp - cases/cut.answers || die "the installed program through a link"
for name in answers lines; do
    if "$prefix/bin/$name" word 2>"$work/said" </dev/null || ! grep -q "^usage: $name " "$work/said"; then die "the installed $name takes arguments"; fi
done

echo "install: built and run by pkg-config, by CMake and by place; the installed programs answer as stored"
