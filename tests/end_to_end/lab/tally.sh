# Sourced by ../run. The closing tally: beside what the program prints, in every form of report, where there is none, and in transcripts.

# tally_of RUN ARGS..: the tally of the first run, or of the second, by the CSV, as the program prints it.
tally_of() {
    local column=$(($1 + 3))
    shift
    "$lab" --csv "$@" 2>"$work/errors" | awk -F, -v column="$column" '$1 == "tally" { line = line " " $column } END { print "total" line }'
}

# 1: the program's last line is the library's tally
tallied_as_the_program() {
    program "$1" low | tail -n 1 | diff <(tally_of 1 "samples/$1") - && program "$1" high | tail -n 1 | diff <(tally_of 2 "samples/$1") -
}
for sample in good writes refusals spin-up firmware; do
    try "the program's total of samples/$sample" tallied_as_the_program "$sample"
done
total_last() {
    diff <(echo "$1") <(tail -n 1 "$work/$2")
}
try "--replies, the total of the low run" total_last "total 12 5 6 1 0" replies/low.codes
try "--replies, the total of the high run" total_last "total 12 8 0 4 0" replies/high.codes
try "--replies, a total with Linux requests" total_last "total 15 11 1 3 0" both_replies/low.codes.both
try "--replies, that of the high run" total_last "total 15 11 0 4 0" both_replies/high.codes.both

# 2: the reports
kinds="get-phy-info\nset-phy-info phy=3\nset-phy-info phy=9\nset-phy-info phy=0\nraw 00\nraw\nraw 00*27\nrequest control=99\nget-link-errors phy=9\nget-link-errors phy=0 reset=1\ntail 1C000000 00\n"
dir=$(with tally session.txt "$kinds") && sed -i '/^phy .*0001 /s/$/ fixed=1/' "$dir/adapter.txt"
shown_tally() {
    "$lab" "$dir" >"$work/printed"
    diff <(grep -A 6 '^tally' "$work/printed") - <<'END'
tally                low  high
  requests           10   10
  granted            1    3
  denied             4    0
  otherwise refused  2    4
  100s               3    3

END
}
try "a tally of all kinds" shown_tally
try "a request that is cut counts nowhere" marks 1 "mark: 4 of 10 up to the cut differ, 4 denied low" "$dir"
tally_in_python() {
    "$lab" --json "$1" >"$work/json"
    "$lab" --csv "$1" >"$work/csv"
    python3 - "$work/json" "$work/csv" <<'END'
import csv, json, sys
sheet = json.load(open(sys.argv[1]))
lines = [line for line in csv.DictReader(open(sys.argv[2])) if line["kind"] == "tally"]
assert [line["what"] for line in lines] == ["requests", "granted", "denied", "otherwise refused", "100s"]
assert {line["differs"] for line in lines} == {""}
for i, run in enumerate(sheet["runs"]):
    answers = [request["answers"][i] for request in sheet["requests"]]
    codes = [answer["code"] if answer["call"] == 0 else -answer["call"] for answer in answers]
    counted = [len(codes), codes.count(0), codes.count(4), len(codes) - codes.count(0) - codes.count(4) - codes.count(-100), codes.count(-100)]
    names = ["requests", "granted", "denied", "otherwise_refused", "short"]
    assert run["tally"] == dict(zip(names, counted)), run
    assert [int(line[run["name"]]) for line in lines] == counted
    assert sheet["mark"]["denied"][i] == run["tally"]["denied"]
END
}
if command -v python3 >/dev/null; then
    for folder in "$dir" samples/refusals samples/linux; do
        try "the tally of $(basename "$folder") as python reads it" tally_in_python "$folder"
    done
fi
page=$work/tally.html
tally_in_page() {
    "$lab" --html "$page" "$dir" >/dev/null
    [ $? -eq 1 ] && self_contained && has 1 '<h2>Tally</h2>' && has 1 '<th>tally</th><th>low</th><th>high</th></tr>' &&
        has 1 '<td class="what">requests</td><td class="value">10</td><td class="value">10</td></tr>' &&
        has 1 '<td class="what">granted</td><td class="value">1</td><td class="value">3</td></tr>' &&
        has 1 '<td class="what">denied</td><td class="value">4</td><td class="value">0</td></tr>' &&
        has 1 '<td class="what">otherwise refused</td><td class="value">2</td><td class="value">4</td></tr>' &&
        has 1 '<td class="what">100s</td><td class="value">3</td><td class="value">3</td></tr>'
}
try "the tally in the page" tally_in_page
levels_in_page() {
    "$lab" --levels --html "$page" "$dir" >/dev/null
    has 1 '<th>tally</th><th>None</th><th>Restricted</th><th>Limited</th><th>Full</th></tr>' &&
        has 1 '<td class="what">denied</td><td class="value">6</td><td class="value">4</td><td class="value">4</td><td class="value">0</td></tr>'
}
try "the tally of all levels in the page" levels_in_page
try "a tally without a mark" no_mark " otherwise refused 5 5" "$work/headers"
csv_without_a_mark() {
    marks 2 "tally,,otherwise refused,5,5,," --csv "$work/headers" && ! grep -q '^denied,' "$work/printed"
}
try "a tally without a mark in CSV, and no line of kind denied" csv_without_a_mark
try "short buffers of both headers" marks 2 " 100s 2 2" "$work/linux_headers"

# 3: no tally where the session was not run
untallied() {
    rm -f "$page"
    no_mark "no tally: the session was not run" "$1" && ! grep -q '^tally' "$work/printed" && marks 2 '"tally": null, "firmware": null}, {' --json "$1" &&
        unmarked tally --csv "$1" && ! "$lab" --html "$page" "$1" >/dev/null && has 1 '<p class="note">no tally: the session was not run</p>' && has 0 Tally
}
try "no tally, an adapter that is refused" untallied "$work/refused_102"
try "no tally, a level text that is refused" untallied "$work/low_101"
try "no tally, another level text that is refused" untallied "$work/high_101"
try "no tally, levels the wrong way round" untallied "$work/turned"
try "no tally, a session under the name of the other form" untallied "$work/named_writer"
dir=$(exercise tally_renamed) && rm "$dir/session.txt" && cp samples/writes/session "$dir/session.both"
try "no tally, the other way round" untallied "$dir"
dir=$(levels tally_turned "CSMI=Full;" "CSMI=Restricted;") && : >"$dir/session.txt"
try "no tally, levels the wrong way round and an empty session" untallied "$dir"
echo "tail 05" >"$dir/session.txt"
try "no tally, levels the wrong way round and a session cut in its first request" untallied "$dir"
of_zeros() {
    no_mark "$1" "$2" && diff <(echo "total 0 0 0 0 0") <(tally_of 1 "$2") && diff <(echo "total 0 0 0 0 0") <(tally_of 2 "$2")
}
try "the tally of an empty session" of_zeros "the session of session.txt is empty" "$work/empty_text"
try "the tally of a session cut in its first request" of_zeros "the session is cut at request 1, byte 0" "$work/cut_first"

# 4: transcripts end with the total of their lines
compared_totals() {
    program refusals low >"$work/low.printed" && program refusals high >"$work/high.printed" &&
        "$kit" compare samples/refusals/session "$work/low.printed" "$work/high.printed" | tail -n 9 | tr -s ' ' | diff - <(
            cat <<'END'
 a last request, cut

 tally low high
 requests 17 17
 granted 1 2
 denied 4 0
 otherwise refused 11 14
 100s 1 1
codes: 4 of 17 differ, 4 denied low
END
        )
}
try "labkit compare shows the totals" compared_totals
# transcript_refused LINE TEXT: labkit compare refuses a text, as the low run and as the high one.
transcript_refused() {
    local line="labkit: $work/transcript: $1" good=$work/replies/low.codes
    printf '%b' "$2" >"$work/transcript"
    refuses 1 "$line" "$kit" compare samples/writes/session "$work/transcript" "$good" && refuses 1 "$line" "$kit" compare samples/writes/session "$good" "$work/transcript"
}
lines=$(head -n 13 "$work/replies/low.codes")
no_total="the last line is no total, with which a run ends since W-206: run the program again"
try "a transcript from before W-206" transcript_refused "line 13: $no_total" "$lines\n"
try "one that is cut" transcript_refused "line 14: $no_total" "$lines\ncut\n"
try "one with a line behind the total" transcript_refused "line 15: $no_total" "$lines\ntotal 12 5 6 1 0\ncut\n"
try "one with two totals" transcript_refused "line 14: 'total 12 5 6 1 0' is no request's line" "$lines\ntotal 12 5 6 1 0\ntotal 12 5 6 1 0\n"
for total in "12 6 5 1 0" "12 5 1 6 0" "13 5 6 1 0" "12 5 6 0 1" "12 5 6 1" "12 5 6 1 0 0"; do
    try "a transcript with total $total" transcript_refused "line 14: 'total $total' is not 'total 12 5 6 1 0', the total of the lines above it" "$lines\ntotal $total\n"
done
try "a total behind a refused opening" transcript_refused "line 2: a line behind a refused opening" "open 101\ntotal 0 0 0 0 0\n"

# 5: what docs/LAB.md says
documented_total() {
    program writes low | tail -n 1 | grep -qx 'total 12 5 6 1 0' && grep -qF '`total 12 5 6 1 0`' docs/LAB.md &&
        grep -qF '`no tally: the session was not run`' docs/LAB.md
}
try "the program's total in docs/LAB.md" documented_total
