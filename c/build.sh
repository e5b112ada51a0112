# Sourced by the tests of the programs and by ./install, from the top of the repository: makes the folder $made, which is removed at the end, and has
# the library, which ./install makes itself. Leaves `cc`, the compiler of x86-64 programs with the flags that every C file here passes, and `run`, the
# words that start such a program.

say() { printf '%s: %s\n' "$test" "$*"; }
fail() { say "FAILED: $*"; exit 1; }
want() { command -v "$1" >/dev/null 2>&1 || fail "there is no $1: install $2"; } # COMMAND PACKAGES

if [ "$(uname -m)" = x86_64 ]; then
    want gcc "gcc libc6-dev"
    cc=(gcc) run=()
else
    # proved code is x86-64: a static program of it runs under the user-mode emulator
    want x86_64-linux-gnu-gcc "gcc-x86-64-linux-gnu libc6-dev-amd64-cross"
    want qemu-x86_64 qemu-user
    cc=(x86_64-linux-gnu-gcc -static) run=(qemu-x86_64)
fi
cc+=(-std=c11 -Wall -Wextra -Werror -O2 -Iinclude)

made=$(mktemp -d)
trap 'rm -rf "$made"' EXIT
make_quick() { # the folder $quick, for files that are flushed again and again: in memory, where the machine has that, so that a test does not hang on a disk
    quick=$(mktemp -d -p /dev/shm 2>/dev/null) || quick=$made
    trap 'rm -rf "$made" "$quick"' EXIT
}

library=target/staticlib/libgateway.a
[ -f "$library" ] || [ "$test" = install ] || c/library gateway >"$made/log" 2>&1 || { cat "$made/log"; fail "c/library gateway"; }

build() { # PROGRAM SOURCE.. [FLAG..]: builds it in $made
    local program=$1
    shift
    "${cc[@]}" "$@" "$library" -o "$made/$program" || fail "c/$program does not build"
}

sources() { # PROGRAM: its C files by c/programs.txt
    sed -n "s/^$1: //p" c/programs.txt | sed 's|[^ ][^ ]*|c/&|g'
}

build_program() { # PROGRAM [NAME [SOURCE.. FLAG..]]: builds one of c/programs.txt in $made, under another name and with more if need be
    local program=$1 name=${2:-$1}
    shift $(($# > 1 ? 2 : 1))
    build "$name" $(sources "$program") "$@"
}
