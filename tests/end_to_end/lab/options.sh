# Sourced by ../run. Options, exit statuses, what is written out, and long sessions.

# prints FILE ARGS..: ./lab prints what the file has, and nothing on standard error.
prints() {
    local expected=$1
    shift
    "$lab" "$@" >"$work/printed" 2>"$work/errors"
    diff /dev/null "$work/errors" && diff "$expected" "$work/printed"
}

status_of() {
    local status=$1
    shift
    "$lab" "$@" >"$work/printed" 2>"$work/errors"
    [ $? -eq "$status" ]
}

try "status 0, no difference" status_of 0 samples/good
try "status 1, differences" status_of 1 samples/writes
try "status 2, no mark" status_of 2 "$work/headers"
try "--help" prints rust/lab/src/usage.txt --help
try "--help before all else" prints rust/lab/src/usage.txt --fast nowhere --help
try "-h" prints rust/lab/src/usage.txt -h
try "--levels" prints "$here/lab/levels.out" --levels
try "--levels differ" status_of 1 --levels samples/good
dir=$(exercise no_texts) && rm "$dir/low.txt" "$dir/high.txt"
try "--levels needs no level texts" status_of 1 --levels "$dir"
try "--csv" prints "$here/lab/writes.csv" --csv
try "--json" prints "$here/lab/writes.json" --json
try "--csv without a mark" marks 2 "no mark,,the session of session.txt is empty,,,," --csv "$work/empty_text"
try "--json without a mark" marks 2 '"mark": null' --json "$work/refused_102"
try "--json with the reason" marks 2 '"no_mark": "the opening refuses the adapter of adapter.bin: 102 file length"' --json "$work/refused_102"
python_reads() {
    "$lab" --json "$1" >"$work/json"
    "$lab" --csv "$1" >"$work/csv"
    python3 - "$work/json" "$work/csv" "$2" <<'END'
import csv, json, sys
sheet = json.load(open(sys.argv[1]))
lines = list(csv.reader(open(sys.argv[2])))
assert len({len(line) for line in lines}) == 1, lines
assert sheet["mark"]["differ"] == int(sys.argv[3]) == sum(line[-2] == "yes" and line[0] == "request" for line in lines)
assert sum(request["differs"] for request in sheet["requests"]) == int(sys.argv[3])
END
}
if command -v python3 >/dev/null; then
    try "JSON and CSV as python reads them" python_reads samples/writes 9
    mkdir -p "$work/odd, \"name\"" && cp samples/good/*.txt "$work/odd, \"name\""
    try "JSON and CSV of an odd name" python_reads "$work/odd, \"name\"" 0
else
    echo "there is no python3: JSON and CSV are compared with stored output alone"
fi

# --disks: a write of what is there leaves the same disks
head -c 32768 /dev/zero | tr '\0' 'Z' >"$work/disks"
dir=$(with given_disks session.txt "$disk command=30h lba=1 count=1 data=5A*512\n$disk command=30h lba=2 count=1 data=00*512\n")
try "--disks" marks 1 " phy 0 LBA 2, 512 bytes 5A*512 00*512" --disks "$work/disks" "$dir"
try "--disks, a write of what is there" marks 1 "0 values and 1 sector left differ" --disks="$work/disks" "$dir"
printf 12345 >"$work/five"
try "--disks of another length" no_mark "106 medium or stage length; 5 bytes are given, and 4 phys have 8192 bytes each" --disks "$work/five" "$dir"
try "--disks, no such file" lab_refuses "nowhere is missing; --disks takes the bytes of the disks" --disks nowhere
try "--disks, a folder" lab_refuses "samples is not a file" --disks samples

# --replies, and labkit on what it writes
replies() {
    "$lab" --replies "$work/replies" samples/writes >/dev/null
    cmp "$work/replies/requests" samples/writes/session &&
        "$kit" reply "$work/replies/requests" "$work/replies/high.replies" 5 >"$work/words" &&
        grep -qF '* data               5A*512' "$work/words" && grep -qF '(success)' "$work/words" &&
        "$kit" reply "$work/replies/requests" "$work/replies/low.replies" 4 | grep -qF '4 denied, write attempted'
}
# program SAMPLE LEVEL: what the program prints of a sample, at its low level or its high one.
program() {
    mkdir -p "$work/program" && cp "samples/$1/adapter.bin" "$work/program/" && cp "samples/$1/$2.txt" "$work/program/level.txt" &&
        (cd "$work/program" && "$OLDPWD/$simulator") <"samples/$1/session"
}
# as_the_program SAMPLE FOLDER: what ./lab --replies wrote there are the codes that the program prints.
as_the_program() {
    program "$1" low | diff - "$2/low.codes" && program "$1" high | diff - "$2/high.codes"
}
codes_compared() {
    "$kit" compare "$work/replies/requests" "$work/replies/low.codes" "$work/replies/high.codes" >"$work/printed" &&
        diff <(echo "codes: 8 of 12 differ, 6 denied low") <(tail -n 1 "$work/printed")
}
try "--replies, and labkit reply on them" replies
try "the program prints the codes that the lab has" as_the_program writes "$work/replies"
try "labkit compare on them" codes_compared
try "labkit reply, no such request" refuses 1 "labkit: $work/replies/requests has requests 1 to 12, and no 13" "$kit" reply "$work/replies/requests" "$work/replies/low.replies" 13
try "labkit reply, request 0" refuses 1 "labkit: $work/replies/requests has requests 1 to 12, and no 0" "$kit" reply "$work/replies/requests" "$work/replies/low.replies" 0
try "--replies into a file" lab_refuses "$work/five cannot be written: File exists (os error 17)" --replies "$work/five"

# 200,000 requests
dir=$(exercise many) && cp samples/writes/adapter.txt "$dir/" && grep -v '^#' samples/writes/session.txt >"$work/script"
awk -v file="$work/script" 'BEGIN { while ((getline line < file) > 0) script[n++] = line; for (i = 0; i < 200000; i++) print script[i % n] }' >"$dir/session.txt"
in_seconds() {
    local start=$SECONDS
    marks 1 "mark: 166666 of 200000 differ, 100000 denied low" "$@" && [ $((SECONDS - start)) -lt 30 ]
}
try "200,000 requests in seconds" in_seconds "$dir"
try "no progress without a terminal" diff /dev/null "$work/errors"
try "their tally" grep -qx '  denied  *100000  0' "$work/printed"
progress() {
    script -qec "'$lab' '$1' >'$work/printed'" "$work/typed" >/dev/null
    [ $? -eq 1 ] && grep -aq 'lab: [0-9]* of 200000 requests' "$work/typed"
}
if command -v script >/dev/null; then
    try "progress on a terminal" progress "$dir"
else
    echo "there is no 'script': progress on a terminal is not tested"
fi
rm -r "$dir"

try "samples/writes in docs/LAB.md and README.md" shown_in_documents writes '/^    left by the runs/,/^The mark:/'
# The exercise that docs/LAB.md writes by hand has the mark that stands there.
by_hand() {
    local folder=$work/hand
    mkdir "$folder" && ln -s "$lab" "$folder/lab"
    awk '/^    mkdir mine$/ { on = 1 } on { print substr($0, 5) } /^    \.\/lab mine$/ { on = 0 }' docs/LAB.md >"$folder/commands"
    (cd "$folder" && bash commands >printed)
    [ $? -eq 1 ] && grep -qxF "    $(tail -n 1 "$folder/printed")" docs/LAB.md
}
try "the exercise in docs/LAB.md" by_hand
