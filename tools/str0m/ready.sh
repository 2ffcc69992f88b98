# shellcheck shell=bash
# What a comparison with str0m needs: a checkout of str0m, cargo and gcc. Read by tools/compare-with-str0m
# and bench/beside-str0m.

top=$(cd "$(dirname "${BASH_SOURCE[0]}")/../.." && pwd) || exit 1

# Says why nothing is done.
stop() {
    printf '%s\n' "$@" >&2
    exit 1
}

# Looks for all of it, and names the checkout in STR0M_DIR: how the script is called, and its first
# argument, which is to be the checkout.
ready() {
    local usage=$1 checkout=${2:-} program module
    [ -n "$checkout" ] && [[ $checkout != -* ]] || stop "usage: $usage" \
        "DIR is the folder of str0m 0.25.0, whose files are read as they are: a checkout of" \
        "https://github.com/algesten/str0m at that version; or ~/.cargo/registry/src/*/str0m-0.25.0" \
        "where cargo has fetched it for a project; or what this leaves, str0m-0.25.0:" \
        "    curl -L https://static.crates.io/crates/str0m/str0m-0.25.0.crate | tar -xz"
    for program in cargo gcc; do
        "$program" --version >/dev/null 2>&1 || stop \
            "$program is missing or doesn't run; this needs cargo and gcc"
    done
    STR0M_DIR=$(cd "$checkout" 2>/dev/null && pwd) || stop "$checkout is no folder"
    for module in h264 h264_profile h265 h265_profile h266 h266_profile; do
        [ -f "$STR0M_DIR/src/packet/$module.rs" ] || stop \
            "$STR0M_DIR is no folder of str0m 0.25.0: src/packet/$module.rs is missing"
    done
    export STR0M_DIR
}

# Builds a program: its folder, where its parts go, flags of the compiler.
build() {
    local program=$1 parts=$2
    shift 2
    RUSTFLAGS="-C linker=gcc $*" CARGO_TARGET_DIR=$parts "$top/tools/cargo" build --quiet --release \
        --manifest-path "$program/Cargo.toml" || stop "$program doesn't build"
}
