# For .ci/processors and tests/processors/figures, which read this file: the calls and their answers, made by the proved library, and the
# portable crate compiled for other processors.
folder=target/processors
here=tests/processors
portable=target/portable

# need WHAT TEST..: fails where the test does not hold
need() {
    local what=$1
    shift
    "$@" || { echo "processors: FAILED: $what; tools/setup installs what is needed" >&2; exit 1; }
}

# Debian's compiler, which has the sources of `core` beside it, from 1.88 on, since the sources use as_chunks.
rustc=/usr/bin/rustc
need "$rustc, Debian's rustc-web, is not there" [ -x "$rustc" ]
version=$("$rustc" --version | cut -d' ' -f2)
need "$rustc is $version, and as_chunks needs 1.88" [ "$(printf '%s\n' 1.88 "$version" | sort -V | head -n 1)" = 1.88 ]
library=$("$rustc" --print sysroot)/lib/rustlib/src/rust/library
need "the sources of core, Debian's rust-web-src, are not there" [ -d "$library/core" ]
for tool in cargo arm-none-eabi-gcc qemu-system-arm clang wasm-ld node; do
    need "$tool is not there" command -v "$tool" >/dev/null
done

# core_for TARGET: compiles `core` and the empty crate in place of compiler_builtins, once for each version of the compiler
core_for() {
    local to=$folder/core-$version-$1
    [ -f "$to/libcompiler_builtins.rlib" ] && return
    mkdir -p "$to"
    local compile=("$rustc" --crate-type rlib --target "$1" -O -C panic=abort -Z force-unstable-if-unmarked --cap-lints allow -L "$to" --out-dir "$to")
    RUSTC_BOOTSTRAP=1 "${compile[@]}" --edition 2024 --crate-name core "$library/core/src/lib.rs"
    RUSTC_BOOTSTRAP=1 "${compile[@]}" --edition 2021 --crate-name compiler_builtins "$here/compiler_builtins.rs"
}

# planner_for TARGET NAME OPTION..: compiles the portable crate of $portable into $folder/NAME; `compile` is then how to go on
planner_for() {
    local target=$1 to=$folder/$2
    shift 2
    core_for "$target"
    mkdir -p "$to"
    compile=("$rustc" --edition 2024 --target "$target" -C panic=abort -L "$folder/core-$version-$target" -L "$to" --out-dir "$to" "$@")
    "${compile[@]}" --crate-type rlib --crate-name hubplan_portable "$portable/src/lib.rs"
}

# library_for TARGET NAME OPTION..: the C functions too, $folder/NAME/libhub_c.a, as tools/portable writes them
library_for() {
    planner_for "$@"
    "${compile[@]}" --crate-type staticlib --crate-name hub_c --cfg 'feature="stop"' --extern hubplan_portable -C lto -C codegen-units=1 "$portable/c/src/lib.rs"
}

# tested_library_for TARGET NAME: the same for tests, overflow checked, with a panic handler that tells where
tested_library_for() {
    planner_for "$@" -O -C overflow-checks=on
    "${compile[@]}" --crate-type rlib --crate-name hub_c --extern hubplan_portable "$portable/c/src/lib.rs"
    "${compile[@]}" --crate-type staticlib --crate-name stop --extern hub_c -C lto -C codegen-units=1 "$here/stop.rs"
    mv "$folder/$2/libstop.a" "$folder/$2/libhub_c.a"
}

# on_cortex_m3 LIBRARY NAME RAM BYTES SOURCE..: builds a program for a board with so many bytes of memory from RAM on
on_cortex_m3() {
    local with=$1 name=$2 ram=$3 bytes=$4
    shift 4
    arm-none-eabi-gcc -std=gnu99 -mcpu=cortex-m3 -mthumb -O2 -Wall -Wextra -Werror -Iinclude --specs=rdimon.specs -nostartfiles -T "$here/cortex_m3.ld" \
        -Wl,--defsym=ram="$ram",--defsym=ram_bytes="$bytes",--gc-sections,--no-warn-rwx-segments,--no-warn-execstack \
        "$here/start.c" "$here/panicked.c" "$@" "$folder/$with/libhub_c.a" -o "$folder/$name.elf"
}

# run_cortex_m3 NAME MACHINE WORD..: runs it, with the words as its command line; where `count` is so, the machine's time is the number of its instructions
count=
run_cortex_m3() {
    local program=$1.elf machine=$2 options=enable=on,target=native,arg=program word
    shift 2
    for word in "$@"; do options+=,arg=$word; done
    (cd "$folder" && timeout 300 qemu-system-arm -M "$machine" -nographic -monitor none -serial none $count -semihosting-config "$options" -kernel "$program" 2>&1) |
        sed '/^Timer with period zero, disabling$/d'
}

# The board has 64 KB of memory; lists of 65,536 places and more need another with the same processor.
small=(0x20000000 64K)
large=(0x21000000 16M)

# The calls, and the portable crate.
mkdir -p "$folder"
tools/portable "$portable"
cargo run --release --offline --locked --quiet --manifest-path tests/portable/Cargo.toml -- write "$folder" | sed 's/^/processors: written: /'
