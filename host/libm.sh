# libm.sh, read by the other scripts of this folder (. host/libm.sh): what a compiler is told to link the C library's mathematics, for the
# test that goes by nextafter.

# The libm.a of Debian's cross compiler can be a list of files by the paths of the other machine, which a static link does not find; the
# archive that it means stands beside it.
libm_of() { # COMPILER..
    case " $* " in
    *' -static '*) found=$(find "$(dirname "$("$@" -print-file-name=libm.a)")" -maxdepth 1 -name 'libm-[0-9]*.a' | head -n 1) ;;
    *) found='' ;;
    esac
    echo "${found:--lm}"
}
