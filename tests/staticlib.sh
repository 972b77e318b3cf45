# Sourced, in the repository's root, by the tests that link the static library.
archive=crates/exports/out/libexports.a

# stale: the archive is missing, or older than a source in crates/; what rt makes in crates/*/out is none.
stale() {
    [ ! -f "$archive" ] || [ -n "$(find crates/*/{src,specs,proofs,must-fail} crates.txt -newer "$archive" -print -quit 2>/dev/null)" ]
}

# make_archive LOG: makes the archive if it is stale, what that prints into LOG; a line and status 1 if it cannot be made.
make_archive() {
    stale || return 0
    (cd crates/exports && rt lib) >"$1" 2>&1 && return
    echo "FAIL rt lib in crates/exports: $(tail -n 3 "$1" | tr '\n' ' ')"
    return 1
}
