# For tests/differential/run and bench/run: the archive and a C compiler. To be sourced.
#
# Sets root, out, archive and cc. The archive and the Rattle kit are for x86-64.

root=$(cd "$(dirname "${BASH_SOURCE[0]}")/../.." && pwd -P)
archive=$root/crates/exported/out/libexported.a

give_up() {
    printf '%s\n' "$*"
    exit 1
}

compiles() { # COMPILER: whether it makes an x86-64 program
    command -v "$1" >/dev/null 2>&1 && printf '#include <stdio.h>\nint main(void) { return puts("") < 0; }\n' | "$1" -x c -o "$out/try" - 2>/dev/null
}

need_archive() {
    command -v rt >/dev/null 2>&1 || give_up "rt, the command of the Rattle kit, is not on the path"
    if [ ! -f "$archive" ] || [ -n "$(find "$root/crates" "$root/crates.txt" -type f -not -path '*/out/*' -newer "$archive" -print -quit)" ]; then
        (cd "$root/crates/exported" && rt lib) >"$out/lib.log" 2>&1 || { cat "$out/lib.log"; give_up "rt lib in crates/exported failed"; }
    fi
}

need_compiler() {
    [ "$(uname -m)" = x86_64 ] || give_up "the archive is for x86-64, and so is this: the processor is another"
    cc=gcc
    compiles gcc || cc=cc
    compiles "$cc" || give_up "a C compiler (gcc or cc) with its C library is missing"
}
