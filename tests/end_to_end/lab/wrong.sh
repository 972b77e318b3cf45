# Sourced by ../run. Wrong uses: one line each, status 2, nothing printed. And the folders, names and texts that users have.

# lab_refuses LINE ARGS..
lab_refuses() {
    local line=$1
    shift
    refuses 2 "lab: $line" "$lab" "$@"
}

try "two folders" lab_refuses "2 folders; one exercise at a time, './lab --help' says how" samples/good samples/writes
try "no such option" lab_refuses "no such option '--fast'; './lab --help' lists them" --fast
try "--html without a file" lab_refuses "--html needs a name behind it" --html
try "--csv and --json" lab_refuses "--csv and --json both go to standard output; take one" --csv --json
try "no such folder" lab_refuses "'nowhere' is not a folder" nowhere
try "a file for a folder" lab_refuses "'README.md' is not a folder" README.md
dir=$(exercise no_low) && rm "$dir/low.txt"
try "no low.txt" lab_refuses "$dir/low.txt is missing; it holds a level text, such as CSMI=Restricted;" "$dir"
dir=$(exercise no_high) && rm "$dir/high.txt"
try "no high.txt" lab_refuses "$dir/high.txt is missing; it holds a level text, such as CSMI=Restricted;" "$dir"
dir=$(exercise no_adapter) && rm "$dir/adapter.txt"
try "no adapter" lab_refuses "$dir has neither adapter.txt nor adapter.bin" "$dir"
dir=$(exercise no_session) && rm "$dir/session.txt"
try "no session" lab_refuses "$dir has none of session.txt, session and session.both" "$dir"
dir=$(exercise bad_adapter) && echo "phy port=256" >"$dir/adapter.txt"
try "a bad adapter.txt" lab_refuses "$dir/adapter.txt: line 1: port: 256 is over 255" "$dir"
dir=$(exercise bad_session) && printf 'get-phy-info\nget-phys\n' >"$dir/session.txt"
try "a bad session.txt" lab_refuses "$dir/session.txt: line 2: 'get-phys' is no request" "$dir"
dir=$(exercise escapes) && printf '\033[31m\n' >"$dir/session.txt"
try "a text with escapes" lab_refuses "$dir/session.txt: line 1: '?[31m' is no request" "$dir"
dir=$(exercise folder_text) && rm "$dir/low.txt" && mkdir "$dir/low.txt"
try "a folder for a text" lab_refuses "$dir/low.txt is not a file" "$dir"
dir=$(exercise pipe) && rm "$dir/session.txt" && mkfifo "$dir/session"
try "a pipe for a session" lab_refuses "$dir/session is not a file" "$dir"
dir=$(exercise pipe_beside) && mkfifo "$dir/session"
try "a pipe beside a text" marks 0 "warning session.txt is run, and session beside it" "$dir"

# binary garbage in each file
garbage() {
    head -c 5000 "$simulator" >"$1"
}
dir=$(exercise garbage_text) && garbage "$dir/adapter.txt"
try "garbage for adapter.txt" lab_refuses "$dir/adapter.txt is not a text in UTF-8; save it as one" "$dir"
dir=$(exercise garbage_session_text) && garbage "$dir/session.txt"
try "garbage for session.txt" lab_refuses "$dir/session.txt is not a text in UTF-8; save it as one" "$dir"
dir=$(exercise garbage_adapter) && rm "$dir/adapter.txt" && garbage "$dir/adapter.bin"
try "garbage for adapter.bin" no_mark "the opening refuses the adapter of adapter.bin: 103 block check" "$dir"
dir=$(exercise garbage_session) && rm "$dir/session.txt" && garbage "$dir/session"
try "garbage for session" no_mark "the session is cut at request 1, byte 0: its length says 1179403647, over 32768" "$dir"
dir=$(exercise garbage_level) && garbage "$dir/low.txt"
try "garbage for a level text" no_mark "low.txt gives no level: 101 bad level text" "$dir"
dir=$(exercise short_garbage) && printf '\033[31m\377\000;' >"$dir/low.txt"
try "garbage that names no level" marks 0 "low Limited, by low.txt: .[31m..;" "$dir"

# a byte order mark
dir=$(exercise mark_low) && printf '\357\273\277CSMI=Restricted;' >"$dir/low.txt"
try "a byte order mark before a level" lab_refuses "$dir/low.txt begins with a byte order mark, so a CSMI= behind it begins no entry; save it as plain ASCII without the mark" "$dir"
dir=$(exercise mark_texts) && for text in adapter session; do
    { printf '\357\273\277' && sed 's/$/\r/' "samples/good/$text.txt"; } >"$dir/$text.txt"
done
try "byte order marks and CRLF in descriptions" marks 0 "mark: 0 of 15 differ" "$dir"

# names and folders
mkdir "$work/an exercise" && cp samples/writes/*.txt "$work/an exercise/"
try "a name with a space" marks 1 "mark: 9 of 12 differ" "$work/an exercise"
try "a slash behind it" marks 1 "mark: 9 of 12 differ" "$work/an exercise/"
mkdir "$work/$(printf 'two\nlines\377')"
try "a name of two lines that is not UTF-8" lab_refuses "$work/two?lines�/low.txt is missing; it holds a level text, such as CSMI=Restricted;" "$work/$(printf 'two\nlines\377')"
try "a name like an option" marks 1 "mark: 9 of 12 differ" -- "$(mkdir "$work/-x" && cp samples/writes/*.txt "$work/-x/" && echo "$work/-x")"
elsewhere() {
    (cd "$work" && "$lab" "an exercise" >printed 2>errors; [ $? -eq 1 ] && diff /dev/null errors && grep -q '^exercise  an exercise$' printed)
}
try "another working folder" elsewhere
sample_elsewhere() {
    (cd / && "$lab") >"$work/printed" 2>"$work/errors"
    diff /dev/null "$work/errors" && diff <(tail -n +2 "$here/lab/writes.out") <(tail -n +2 "$work/printed")
}
try "the sample from another working folder" sample_elsewhere

# as_user COMMAND..: as a user whom the file modes bind, where this is root
as_user() {
    if [ "$(id -u)" -eq 0 ]; then setpriv --reuid 65534 --regid 65534 --clear-groups "$@"; else "$@"; fi
}
read_only() {
    chmod -R a-w "$1"
    as_user "$lab" "$1" >"$work/printed" 2>"$work/errors"
    [ $? -eq 1 ] && diff /dev/null "$work/errors" && grep -q '^mark: 9 of 12 differ' "$work/printed"
}
page_into() {
    refuses 2 "lab: $1/page.html cannot be written: Permission denied (os error 13)" as_user "$lab" --html "$1/page.html" "$1"
}
unreadable() {
    chmod 000 "$1/session.txt"
    refuses 2 "lab: $1/session.txt cannot be read: Permission denied (os error 13)" as_user "$lab" "$1"
}
no_entry() {
    chmod 600 "$1"
    refuses 2 "lab: $1 cannot be entered: Permission denied (os error 13)" as_user "$lab" "$1"
}
chmod 755 "$work"
if as_user test -x "$lab" -a -x "$work" 2>/dev/null; then
    try "a folder that cannot be written" read_only "$work/an exercise"
    try "a page into it" page_into "$work/an exercise"
    try "a file that cannot be read" unreadable "$(exercise unreadable)"
    try "a folder that cannot be entered" no_entry "$(exercise no_entry)"
else
    echo "another user cannot be tried: folders that cannot be written or read are not tested"
fi
full() {
    "$lab" samples/good >/dev/full 2>"$work/errors"
    [ $? -eq 2 ] && diff <(echo "lab: standard output: No space left on device (os error 28)") "$work/errors"
}
no_error() {
    "$lab" nowhere 2>/dev/full
    [ $? -eq 2 ]
}
if [ -e /dev/full ]; then
    try "standard output that takes nothing" full
    try "standard error that takes nothing" no_error
fi
a_reader_that_leaves() {
    "$lab" samples/writes 2>"$work/errors" | head -n 1 >/dev/null
    [ "${PIPESTATUS[0]}" -eq 1 ] && diff /dev/null "$work/errors"
}
try "a reader that has seen enough" a_reader_that_leaves
