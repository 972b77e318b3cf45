# Sourced by ../run. What ./lab makes: in a copy of the repository, whose 'rt' stands in for the prover with the archive that is there.

tree="$work/a tree"
tools=$work/tools
mkdir -p "$tree/target" "$tools"
cp -r lab crates.txt samples include "$tree/"
tar -cf - --exclude='crates/*/out' crates | tar -C "$tree" -xf -
mkdir "$tree/rust" && tar -C rust -cf - --exclude=./target . | tar -C "$tree/rust" -xf -
cat >"$tools/rt" <<END
#!/bin/sh
echo "\$@" >>"$work/proved"
[ ! -e "$work/broken" ] || { echo "rt: it is broken"; exit 1; }
echo "rt: chose --jobs 2 for wire"
echo "fn wire::Writer::put: proved"
echo "library numbers: modules loaded=1 checked=0"
echo "crate wire: modules loaded=1 checked=1"
mkdir -p out && cp "$PWD/$archive" out/
END
chmod +x "$tools/rt"

# in_tree ARGS..: its ./lab with that 'rt', and with a cargo folder of the user's that it must not mind.
in_tree() {
    CARGO_TARGET_DIR="$work/other" PATH="$tools:$PATH" "$tree/lab" "$@" >"$work/printed" 2>"$work/errors"
}
proofs() {
    wc -l <"$work/proved"
}
first_build() {
    in_tree "$tree/samples/writes"
    [ $? -eq 1 ] || { cat "$work/errors" && return 1; }
    diff <(tail -n +2 "$here/lab/writes.out") <(tail -n +2 "$work/printed") &&
        grep -q '^lab: proving and compiling the library' "$work/errors" && grep -q '^lab: proving wire$' "$work/errors" && grep -q '^lab: wire is checked$' "$work/errors" &&
        grep -q '^lab: compiling the program$' "$work/errors" && grep -q 'Compiling lab ' "$work/errors" && [ "$(proofs)" -eq 1 ]
}
no_build() {
    in_tree
    [ $? -eq 1 ] && diff /dev/null "$work/errors" && [ "$(proofs)" -eq "$1" ]
}
stale_library() {
    touch "$tree/crates/wire/src/lib.rt"
    in_tree
    [ $? -eq 1 ] && grep -q '^lab: wire is checked$' "$work/errors" && [ "$(proofs)" -eq 2 ]
}
stale_program() {
    sed -i 's/"phy does not exist"/"phy is not there"/' "$tree/rust/labkit/src/names.rs"
    in_tree
    [ $? -eq 1 ] && grep -q 'Compiling lab ' "$work/errors" && grep -q '2002 phy is not there' "$work/printed"
}
removed_source() {
    rm "$tree/crates/compare/must-fail/"*.edit
    in_tree
    [ $? -eq 1 ] && [ "$(proofs)" -eq 3 ]
}
# linked PATH: through a symbolic link, a link to it, and a relative one.
linked() {
    ln -s "$tree/lab" "$work/absolute" && ln -s absolute "$work/relative"
    (cd / && "$work/relative" "$tree/samples/writes") >"$work/printed" 2>"$work/errors"
    [ $? -eq 1 ] && diff /dev/null "$work/errors" && grep -q '^mark: 9 of 12 differ' "$work/printed"
}
does_not_prove() {
    touch "$work/broken" "$tree/crates/wire/src/lib.rt"
    in_tree
    [ $? -eq 2 ] && diff /dev/null "$work/printed" && diff <(echo "lab: the library cannot be made; $tree/target/lab.log says why") <(tail -n 1 "$work/errors") &&
        grep -q 'it is broken' "$tree/target/lab.log"
}
does_not_compile() {
    rm "$work/broken"
    echo "fn" >>"$tree/rust/lab/src/main.rs"
    in_tree
    [ $? -eq 2 ] && diff /dev/null "$work/printed" && grep -q '^error' "$work/errors" &&
        diff <(echo "lab: the program cannot be made; what cargo says stands above") <(tail -n 1 "$work/errors")
}
# without NAME..: a PATH without these commands
without() {
    local tool
    mkdir -p "$work/few" && rm -f "$work/few/"*
    for tool in bash env find dirname readlink mktemp touch rm cat sed tee mkdir cargo rustc cc rt; do
        ln -s "$(command -v "$tool")" "$work/few/$tool" 2>/dev/null
    done
    for tool; do rm -f "$work/few/$tool"; done
}
no_tool() {
    local line=$1 name=$2
    without "$name"
    PATH=$work/few "$tree/lab" >"$work/printed" 2>"$work/errors"
    [ $? -eq 2 ] && diff <(echo "lab: $line") "$work/errors"
}
edited_copy() {
    local dir=$work/copy
    cp -r samples/writes "$dir" && sed -i '/command=30h/d' "$dir/session.txt"
    marks 1 "mark: 7 of 11 differ, 5 denied low" "$dir" && grep -qF 'session.txt is run, and session beside it, which is not what it describes, is not' "$work/printed"
}
edited_adapter() {
    local dir=$work/copy
    sed -i '3s/signature=ata //' "$dir/adapter.txt" && echo "get-sata-signature phy=0" >>"$dir/session.txt"
    marks 1 "2010 no SATA signature" "$dir" && grep -qF 'adapter.txt is run, and adapter.bin beside it, which is not what it describes, is not' "$work/printed"
}
newer_binary() {
    local dir
    dir=$(exercise newer_binary) && cp samples/writes/session "$dir/session" && touch -d '+1 hour' "$dir/session" &&
        lab_refuses "$dir/session is newer than session.txt and is not what it describes; remove the one that is not to run" "$dir"
}
binaries_alone() {
    local dir=$work/binaries
    mkdir "$dir" && cp samples/writes/{adapter.bin,session,low.txt,high.txt} "$dir/"
    marks 1 "mark: 9 of 12 differ" "$dir" && grep -q '^session   session, 12 requests$' "$work/printed"
}
try "the first build shows what it does" first_build
try "what is fresh is not made again" no_build 1
try "a library older than its sources" stale_library
try "a program older than its sources" stale_program
try "a source that was removed" removed_source
try "nothing is stale then" no_build 3
try "through symbolic links" linked
try "a library that cannot be proved" does_not_prove
try "no rt" no_tool "the library is missing or older than crates/, and there is no 'rt' to make it" rt
try "a program that does not compile" does_not_compile
try "no cargo" no_tool "the program is missing or older than rust/, and there is no 'cargo' to make it" cargo
try "--help without anything made" eval 'rm -rf "$tree/crates/exports/out" "$tree/rust/target"; in_tree --help && diff rust/lab/src/usage.txt "$work/printed" && diff /dev/null "$work/errors"'
try "an edited copy of a sample runs the edited session" edited_copy
try "an edited copy of a sample runs the edited adapter" edited_adapter
try "a binary put beside a text later" newer_binary
try "binaries without descriptions" binaries_alone
rm -rf "$tree" "$work/other"
