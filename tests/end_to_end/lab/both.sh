# Sourced by ../run. session.both: beside a text, alone, damaged, under the name of the other form; and the kit on it.

cut_both="the session is cut at request"

# exercise_of NAME: a copy of samples/linux without its text.
exercise_of() {
    mkdir "$work/$1" && cp samples/linux/{adapter.txt,low.txt,high.txt,session.both} "$work/$1/" && echo "$work/$1"
}

# bytes NUMBER..: each in four bytes
bytes() {
    local n
    for n; do printf "$(printf '\\%03o\\%03o\\%03o\\%03o' $((n & 255)) $((n >> 8 & 255)) $((n >> 16 & 255)) $((n >> 24 & 255)))"; done
}

# 1: which file runs
binary_alone() {
    local dir
    dir=$(exercise_of both_alone) && "$lab" "$dir" >"$work/printed" 2>"$work/errors"
    [ $? -eq 1 ] && diff /dev/null "$work/errors" && diff <(sed 's/session\.txt/session.both/' "$here/lab/linux.out" | tail -n +2) <(tail -n +2 "$work/printed")
}
try "session.both without a text runs as the text does" binary_alone
dir=$(exercise_of both_binaries) && cp samples/writes/session "$dir/"
try "session and session.both without a text" lab_refuses "$dir has session and session.both, and no session.txt; remove the one that is not to run" "$dir"
dir=$(exercise_of both_edited) && grep -v 'command=30h' samples/linux/session.txt >"$dir/session.txt" && touch -d '-1 hour' "$dir/session.both"
try "an edited text beside session.both" marks 1 "mark: 2 of 14 differ, 1 denied low, 1 Linux request above the low level" "$dir"
try "is run, with a warning" marks 1 "warning session.txt is run, and session.both beside it, which is not what it describes, is not" "$dir"
touch -d '+1 hour' "$dir/session.both"
try "a session.both put beside a text later" lab_refuses "$dir/session.both is newer than session.txt and is not what it describes; remove the one that is not to run" "$dir"
dir=$(exercise_of both_three) && cp samples/linux/session.txt samples/writes/session "$dir/" && touch -d '-1 hour' "$dir/session"
try "a session beside a text with Linux requests" marks 1 "warning session.txt is run, and session beside it, which is not what it describes, is not" "$dir"
try "the session.both beside it is what it describes" unmarked "session.both beside" "$dir"
touch -d '+1 hour' "$dir/session"
try "a session put beside it later" lab_refuses "$dir/session is newer than session.txt and is not what it describes; remove the one that is not to run" "$dir"
dir=$(exercise both_forms) && "$kit" session "$dir/session.txt" "$dir/session" && "$kit" session --both "$dir/session.txt" "$dir/session.both"
try "both binaries of a text without Linux requests" unmarked warning "$dir"
rm "$dir/session.txt" "$dir/session"
try "session.both with the first header alone" marks 0 "mark: 0 of 15 differ, 0 denied low; what they left is the same" "$dir"
mv "$dir/session.both" "$dir/session"
try "a session.both under the name session" marks 0 "warning session also reads as a session of both headers, of 15 requests; if it is one, its name is session.both" "$dir"
dir=$(exercise_of both_pipe) && rm "$dir/session.both" && mkfifo "$dir/session.both"
try "a pipe for session.both" lab_refuses "$dir/session.both is not a file" "$dir"
dir=$(exercise_of both_garbage) && garbage "$dir/session.both"
try "garbage for session.both" no_mark "$cut_both 1, byte 0: its header is 1179403647" "$dir"
dir=$(exercise_of both_empty) && : >"$dir/session.both"
try "an empty session.both" no_mark "the session of session.both is empty" "$dir"

# 2: where a session of both headers ends
dir=$(exercise_of both_cut) && head -c 250 samples/linux/session.both >"$dir/session.both"
try "a request cut short" marks 0 "mark: 0 of 1 up to the cut differ, 0 denied low, 0 Linux requests above the low level" "$dir"
try "and where" marks 0 "$cut_both 2, byte 208: its length says 56 bytes, and there are 30" "$dir"
head -c 215 samples/linux/session.both >"$dir/session.both"
try "what stands before a request cut short" marks 0 "$cut_both 2, byte 208: of the 12 bytes before it there are 7" "$dir"
head -c 100 samples/linux/session.both >"$dir/session.both"
try "a session cut in its first request" no_mark "$cut_both 1, byte 0: its length says 196 bytes, and there are 88" "$dir"
{ head -c 208 samples/linux/session.both && bytes 2 20 0 && tail -c +209 samples/linux/session.both; } >"$dir/session.both"
try "a header of another number" marks 0 "$cut_both 2, byte 208: its header is 2, which is neither 0, the first, nor 1, Linux's" "$dir"
{ head -c 208 samples/linux/session.both && bytes 0 20 0 && tail -c +209 samples/linux/session.both; } >"$dir/session.both"
try "the first header with a control code" marks 0 "$cut_both 2, byte 208: it has the first header, and the control code before it is 20, where 0 has to stand" "$dir"
{ head -c 208 samples/linux/session.both && bytes 1 20 40000 && head -c 40000 /dev/zero; } >"$dir/session.both"
try "a request over 32,768 bytes" marks 0 "mark: 0 of 2 differ" "$dir"
dir=$(with both_tail session.txt "linux get-phy-info\ntail 01000000 16000000 28000000 0102\n")
try "a tail behind Linux requests" marks 0 "$cut_both 2, byte 2084: its length says 40 bytes, and there are 2" "$dir"
dir=$(with both_tail_alone session.txt "get-phy-info\nlinux tail 01000000 16000000 28000000 0102\n")
try "a tail that says that it is of both headers" marks 0 "$cut_both 2, byte 2092: its length says 40 bytes, and there are 2" "$dir"

# 3: a session under the name of the other form
reads_as_both="session reads as a session of both headers, of"
reads_as_program="session.both reads as a session in the program's form, of"

# misnamed NAME FILE TEXT [OPTION]: an exercise whose session is this file, made from the text by labkit session.
misnamed() {
    local dir name=$1 file=$2 text=$3
    shift 3
    dir=$(with "$name" session.txt "$text") && "$kit" session "$@" "$dir/session.txt" "$dir/made" && rm "$dir/session.txt" && mv "$dir/made" "$dir/$file" && echo "$dir"
}
writer="get-phy-info\nget-link-errors phy=0\n$write_disk\nlinux set-phy-info phy=1 maximum=8\n"
dir=$(misnamed named_writer session "$writer" --both)
try "a Linux writer under the name session" no_mark "no mark: $reads_as_both 4 requests, 2 of them Linux; its name then is session.both" "$dir"
try "its requests do not run" unmarked "success" "$dir"
try "--levels of it" no_mark "$reads_as_both 4 requests, 2 of them Linux" --levels "$dir"
try "--json of it" marks 2 "\"no_mark\": \"$reads_as_both 4 requests, 2 of them Linux; its name then is session.both\"" --json "$dir"
try "--csv of it" marks 2 "no mark,,\"$reads_as_both 4 requests, 2 of them Linux; its name then is session.both\"" --csv "$dir"
cp -r "$dir" "$work/named_right" && mv "$work/named_right/session" "$work/named_right/session.both"
try "under its own name" marks 1 "mark: 0 of 4 differ, 0 denied low, 2 Linux requests above the low level" "$work/named_right"
dir=$(misnamed named_cut session "$writer" --both) && truncate -s -1 "$dir/session"
try "a Linux writer under the name session, cut short" no_mark "$reads_as_both 3 requests, 1 of them Linux, up to a cut; its name then is session.both" "$dir"
dir=$(misnamed named_astray session "$writer" --both) && bytes 9 9 9 >>"$dir/session"
try "a Linux writer under the name session, and what is no request" no_mark "$reads_as_both 4 requests, 2 of them Linux, up to a cut; its name then is session.both" "$dir"
dir=$(misnamed named_padded session "get-phy-info\n$write_disk buffer=768\n" --both)
try "a Linux writer that is whole in both forms" no_mark "$reads_as_both 2 requests, 1 of them Linux; its name then is session.both" "$dir"
bytes 0 0 >>"$dir/session"
try "and one that is cut in one of them alone" no_mark "$reads_as_both 2 requests, 1 of them Linux, up to a cut; its name then is session.both" "$dir"
dir=$(misnamed named_linux session "linux get-phy-info\nlinux get-driver-info\n" --both)
try "Linux requests alone under the name session" no_mark "$reads_as_both 2 requests, 2 of them Linux; its name then is session.both" "$dir"
dir=$(misnamed named_long session "get-phy-info\nraw 00*32769\n" --both)
try "a first header of a length that the program does not take" no_mark "$reads_as_both 2 requests; its name then is session.both" "$dir"
dir=$(misnamed named_first session "get-phy-info\nset-phy-info phy=0 maximum=8\n" --both)
try "first headers that are whole in both forms run" marks 1 "mark: 1 of 6 differ, 1 denied low" "$dir"
try "with a warning" marks 1 "warning session also reads as a session of both headers, of 2 requests; if it is one, its name is session.both" "$dir"
dir=$(misnamed named_short session "raw 16\nget-phy-info\nraw\nraw\nget-link-errors\n")
try "short requests in the program's form run" marks 0 "mark: 0 of 5 differ, 0 denied low; what they left is the same" "$dir"
try "without a warning" unmarked warning "$dir"
dir=$(exercise_of both_renamed) && cp samples/writes/session "$dir/session.both"
try "a session under the name session.both" no_mark "no mark: $reads_as_program 12 requests; its name then is session" "$dir"
cp samples/refusals/session "$dir/session.both"
try "a session that is cut under the name session.both" no_mark "$reads_as_program 17 requests, up to a cut; its name then is session" "$dir"
dir=$(misnamed named_empty session.both "raw\nraw\nget-phy-info\nset-phy-info phy=0 maximum=8\n")
try "a session that begins with empty requests under the name session.both" no_mark "$reads_as_program 4 requests; its name then is session" "$dir"
mv "$dir/session.both" "$dir/session"
try "under the name session" marks 1 "mark: 1 of 4 differ, 1 denied low" "$dir"

# 4: descriptions
round() {
    "$kit" session-text --both "$1" "$work/text" && "$kit" session --both "$work/text" "$work/again" && cmp "$work/again" "$1"
}
every_cut() {
    local end
    for end in $(seq 0 97 12862) 1 4 8 11 12 13 207 208 209; do
        head -c "$end" samples/linux/session.both >"$work/part" && round "$work/part" || return 1
    done
}
altered() {
    local at
    for at in $(seq 0 24) $(seq 200 240); do
        { head -c "$at" samples/linux/session.both && printf '\007' && tail -c "+$((at + 2))" samples/linux/session.both; } >"$work/part" && round "$work/part" || return 1
    done
}
try "cut sessions of both headers come back" every_cut
try "altered sessions of both headers come back" altered
try "labkit session, a text with Linux requests" refuses 1 "labkit: samples/linux/session.txt: line 4: the program's session has the first header alone; a Linux request stands in a session.both: labkit session --both" "$kit" session samples/linux/session.txt "$work/x"
try "labkit session --both to standard output" eval '"$kit" session --both samples/linux/session.txt - | cmp - samples/linux/session.both'
bad_line() {
    echo "$2" >"$work/line.txt"
    refuses 1 "labkit: $work/line.txt: line 1: $1" "$kit" session --both "$work/line.txt" "$work/x"
}
try "linux without a name" bad_line "linux needs the name of a request" "linux"
try "a signature in a Linux request" bad_line "linux get-phy-info has no field 'signature'" 'linux get-phy-info signature="CSMISAS"'
try "a Direction of 17 bits" bad_line "direction: 65536 is over 65535" "linux get-phy-info direction=65536"
try "a control code of 33 bits" bad_line "control: 4294967296 is over 4294967295" "linux raw control=4294967296"
dir=$(with both_bad session.txt "linux get-phy-info\nlinux get-phys\n")
try "a bad line with Linux requests" lab_refuses "$dir/session.txt: line 2: 'get-phys' is no request" "$dir"
dir=$(with both_fields session.txt "linux get-link-errors phy=0 controller=7 return-code=77 timeout=9 direction=1 ignored=FFFF buffer=50\nlinux raw control=22 00000000 28000000 00000000 3C000000 0000 0000 00*20\n")
try "the fields of the Linux header by name, and raw" marks 0 "mark: 0 of 2 differ, 0 denied low, 0 Linux requests above the low level" "$dir"

# 5: --replies, and labkit on what it writes
both_replies() {
    local out=$work/both_replies
    "$lab" --replies "$out" samples/linux >/dev/null
    diff <(ls "$out") <(printf '%s\n' high.codes.both high.replies.both low.codes.both low.replies.both requests.both) &&
        cmp "$out/requests.both" samples/linux/session.both &&
        "$kit" reply --both "$out/requests.both" "$out/high.replies.both" 10 >"$work/words" &&
        grep -qxF 'linux stp-passthru (25): 0 success' "$work/words" && grep -qF '* data               5A*512' "$work/words" &&
        "$kit" reply --both "$out/requests.both" "$out/low.replies.both" 11 | grep -qxF 'set-phy-info (21): 4 denied, write attempted' &&
        "$kit" reply --both "$out/requests.both" "$out/low.replies.both" 15 | grep -qxF 'linux unknown control code (CC770014h): 2 bad control code' &&
        diff <(printf '%s\n' 'request call code' '1 0 0') <(head -n 2 "$out/low.codes.both") && grep -qx '11 0 4' "$out/low.codes.both"
}
try "--replies with Linux requests, and labkit reply --both on them" both_replies
try "labkit reply --both, no such request" refuses 1 "labkit: $work/both_replies/requests.both has requests 1 to 15, and no 16" "$kit" reply --both "$work/both_replies/requests.both" "$work/both_replies/low.replies.both" 16
no_codes="of both headers, and the program, whose codes are compared, has the first alone; Linux requests run as Full, so their codes show no need: ./lab gives the mark"
try "labkit compare on codes of both headers" refuses 1 "labkit: $work/both_replies/low.codes.both: $no_codes" "$kit" compare samples/writes/session "$work/both_replies/low.codes.both" "$work/both_replies/high.codes.both"
try "labkit compare on a session of both headers" refuses 1 "labkit: samples/linux/session.both: $no_codes" "$kit" compare samples/linux/session.both "$work/replies/low.codes" "$work/replies/high.codes"
# Without Linux requests the codes are what the program prints, whatever the form.
first_codes() {
    local out=$work/first_replies
    mkdir "$work/first_both" && cp samples/writes/{adapter,low,high}.txt "$work/first_both/" && "$kit" session --both samples/writes/session.txt "$work/first_both/session.both" &&
        ! "$lab" --replies "$out" "$work/first_both" >/dev/null &&
        diff <(ls "$out") <(printf '%s\n' high.codes high.replies.both low.codes low.replies.both requests.both) &&
        diff "$work/replies/low.codes" "$out/low.codes" && diff "$work/replies/high.codes" "$out/high.codes"
}
try "--replies of a session.both with the first header alone" first_codes
described_replies() {
    "$kit" session-text --both "$work/both_replies/low.replies.both" - | grep -qxF 'linux get-phy-info length=2052 return-code=3'
}
try "labkit session-text --both on replies" described_replies
linux_reply() {
    printf '00000000 28000000 00000000 3C000000 0000 0000 01 00*19' >"$work/request.hex"
    printf '00000000 28000000 00000000 3C000000 0000 0000 01 00*11 07 00*7' >"$work/reply.hex"
    "$kit" reply --linux "$1" "$work/request.hex" "$work/reply.hex" >"$work/words" &&
        grep -qxF 'linux get-link-errors (22): 0 success' "$work/words" && grep -qxF '* loss-of-sync       7' "$work/words"
}
try "labkit reply --linux by a number" linux_reply 22
try "labkit reply --linux by a name" linux_reply get-link-errors
try "labkit reply --linux, no code" refuses 1 "labkit: 'x' is not a number (decimal, or hexadecimal with an h)" "$kit" reply --linux x "$work/request.hex" "$work/reply.hex"
