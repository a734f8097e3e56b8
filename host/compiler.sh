# compiler.sh, read by the other scripts of this folder (. host/compiler.sh): how to compile and run for x86-64, for which the proved
# library is. Sets cc, cxx, nm and run, each a command of words: on x86-64 the compilers of CC and CXX, and nothing before a program; elsewhere
# a cross compiler with its nm, and Debian's emulator. What is missing is installed by apt-get.

die() { printf '%s: %s\n' "$0" "$*" >&2; exit 2; }

command -v rt >/dev/null || die "rt, the command of the Rattle kit, is not in the PATH"

# what is made on the way goes at the end, after an interrupt too
work=$(mktemp -d)
trap 'rm -rf "$work"' EXIT
trap 'exit 129' HUP
trap 'exit 130' INT
trap 'exit 143' TERM

# installs packages
fetch() { # PACKAGE..
    command -v apt-get >/dev/null || die "missing: $*, and there is no apt-get to install them: install them, and run this again"
    [ "$(id -u)" -eq 0 ] || die "missing: $*, which only root can install: apt-get install $*"
    { apt-get update && DEBIAN_FRONTEND=noninteractive apt-get install -y --no-install-recommends "$@"; } >&2 ||
        die "missing: $*, and apt-get could not install them: is there a network?"
}

# makes sure of a compiler: it makes a program that uses the C library
compiles() { # LANGUAGE COMMAND..
    language=$1
    shift
    printf '#include <stdio.h>\nint main() { return puts("") < 0; }\n' | "$@" -x "$language" -c -o "$work/probe.o" - 2>"$work/said" &&
        $cc -o "$work/probe" "$work/probe.o" 2>"$work/said"
}
needs_compiler() { # LANGUAGE COMMAND PACKAGE..
    language=$1 command=$2
    shift 2
    # shellcheck disable=SC2086
    compiles "$language" $command || { fetch "$@" && compiles "$language" $command; } || {
        cat "$work/said" >&2
        die "'$command' compiles no $language program"
    }
}

case $(uname -m) in
x86_64)
    cc=${CC:-cc} cxx=${CXX:-c++} nm=nm run=
    needs_compiler c "$cc" gcc libc6-dev
    needs_compiler c++ "$cxx" g++
    ;;
*)
    cc='x86_64-linux-gnu-gcc -static' cxx=x86_64-linux-gnu-g++ nm=x86_64-linux-gnu-nm
    needs_compiler c "$cc" gcc-x86-64-linux-gnu libc6-dev-amd64-cross
    needs_compiler c++ "$cxx" g++-x86-64-linux-gnu
    run=qemu-x86_64
    command -v $run >/dev/null || { fetch qemu-user && command -v $run >/dev/null; } || die "there is no emulator $run"
    ;;
esac
