# shellcheck shell=sh
# Sourced by the scripts of this folder, in the repository's root. Proves the exported library and leaves its machine code
# in $made/libexports.a. Needs rt, on x86-64. All else that it makes is in target/.
[ "$(uname -m)" = x86_64 ] || {
    printf 'the exported library is x86-64 code, and this is %s\n' "$(uname -m)" >&2
    exit 1
}
made=$PWD/target/bench
mkdir -p "$made"
say=$made/staticlib.out

# What rt says is shown only where it fails.
(cd crates/exports && rt lib) >"$say" 2>&1 || {
    cat "$say"
    exit 1
}
cp crates/exports/out/libexports.a "$made/libexports.a"
