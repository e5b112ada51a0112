# Sourced by `run` and `plots`, from the top of the repository: builds the bench in the folder $made, which is removed at the end.
# Leaves `run`, the words that start an x86-64 program here, and `counter`, set where the long books can be counted.

say() { printf 'bench: %s\n' "$*"; }
fail() { say "FAILED: $*"; exit 1; }

# ---- the kit's compiler, which also compiles the proved code, and the linker beside it
rt=$(command -v rt) || fail "rt is not on the PATH"
kit=${RATTLE_HOME:-$(dirname "$(readlink -f "$rt")")/..}
tools=$kit/toolchain/bin
for tool in clang ld.lld; do
    [ -x "$tools/$tool" ] || fail "the kit of rt has no $tool for this machine"
done

# ---- the emulator, where the machine is not x86-64: the kit's, or Debian's
run=()
if [ "$(uname -m)" != x86_64 ]; then
    if [ -x "$tools/qemu-x86_64" ]; then
        run=("$tools/qemu-x86_64")
    else
        if ! command -v qemu-x86_64 >/dev/null 2>&1; then
            say "installing qemu-user"
            apt-get update -qq >/dev/null || fail "apt-get update"
            DEBIAN_FRONTEND=noninteractive apt-get install -y -qq --no-install-recommends qemu-user >/dev/null || fail "cannot install qemu-user"
        fi
        run=(qemu-x86_64)
    fi
fi

made=$(mktemp -d)
trap 'rm -rf "$made"' EXIT

# ---- the program: the proved library, the baseline at -O3, and the driver
# the gate has just built it, and says so
[ "${BUILT:-}" = ci ] || c/library gateway >"$made/library" 2>&1 || { cat "$made/library"; fail "c/library gateway"; }
objects=()
compile() { # NAME FLAG..
    local name=$1
    shift
    objects+=("$made/$name.o")
    "$tools/clang" --target=x86_64-unknown-linux-gnu -std=gnu11 -Wall -Wextra -Werror -fno-stack-protector -Ibench/headers -Iinclude "$@" \
        -c "bench/$name.c" -o "$made/$name.o" || fail "bench/$name.c does not compile"
}
compile baseline -O3
compile memory -O2 -ffreestanding -fno-builtin
for part in appends bench bits books compare count messages times; do compile "$part" -O2 -ffreestanding; done
"$tools/ld.lld" -static -o "$made/bench" "${objects[@]}" target/staticlib/libgateway.a || fail "the bench does not link"

# ---- the long books: too long for the bench's own counter, and counted by valgrind, where it is there
counter=
if [ "$(uname -m)" = x86_64 ] && command -v valgrind >/dev/null 2>&1; then counter=valgrind; fi

# Prints the lines of a book of so many KiB: bytes, messages, and each side's count.
count_long() { # NAME KIBIBYTES
    local side function count
    for side in proved baseline; do
        [ "$side" = proved ] && function=boe_restart || function=base_restart
        valgrind --tool=callgrind --callgrind-out-file=/dev/null --toggle-collect="$function" --log-file="$made/log" \
            "$made/bench" "$2" >"$made/size" || fail "the bench on a book of $2 KiB"
        count=$(sed -n 's/.*Collected : \([0-9]*\).*/\1/p' "$made/log")
        [ -n "$count" ] || fail "valgrind tells no count"
        echo "$1 restart $side $count"
    done
    sed "s/^book/$1/" "$made/size"
}
