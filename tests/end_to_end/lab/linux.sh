# Sourced by ../run. Linux requests: how they are shown and marked, and that a console that writes by them is not taken for one that reads.

read_disk="linux stp-passthru phy=0 destination=5000C50000000001 command=20h lba=3 count=1 data=00*512"
write_disk="linux stp-passthru phy=0 destination=5000C50000000001 command=30h lba=3 count=1 data=5A*512"

# unmarked WORDS ARGS..: ./lab prints nothing with these words.
unmarked() {
    local words=$1
    shift
    "$lab" "$@" >"$work/printed" 2>"$work/errors"
    diff /dev/null "$work/errors" && ! grep -F -- "$words" "$work/printed"
}

# 1: the sample in every form
try "linux, status" status_of 1 samples/linux
try "linux, --csv" prints "$here/lab/linux.csv" --csv samples/linux
try "linux, --json" prints "$here/lab/linux.json" --json samples/linux
try "linux, --levels" prints "$here/lab/linux-levels.out" --levels samples/linux
linux_in_python() {
    "$lab" --json samples/linux >"$work/json"
    "$lab" --csv samples/linux >"$work/csv"
    python3 - "$work/json" "$work/csv" <<'END'
import csv, json, sys
sheet = json.load(open(sys.argv[1]))
lines = list(csv.DictReader(open(sys.argv[2])))
requests = [line for line in lines if line["kind"] == "request"]
assert [request["header"] for request in sheet["requests"]] == [line["header"] for line in requests]
above = [request["number"] for request in sheet["requests"] if request["above"][0]]
assert above == [int(line["number"]) for line in requests if line["denied under the first header"]] == [8, 9]
assert sheet["mark"]["above"] == [run["above"] for run in sheet["runs"]] == [2, 0]
assert [line["low"] for line in lines if line["kind"] == "above"] == ["2"]
END
}
if command -v python3 >/dev/null; then
    try "JSON and CSV of Linux requests as python reads them" linux_in_python
fi
try "Linux requests in docs/LAB.md and README.md" shown_in_documents linux '/^### With Linux requests/,/^## /'

# 2: no difference is not yet a console that reads
dir=$(with linux_writes session.txt "linux get-phy-info\n$write_disk\n$read_disk\nlinux set-phy-info phy=1 maximum=8\n")
try "a Linux console that writes" marks 1 "mark: 0 of 4 differ, 0 denied low, 2 Linux requests above the low level; what they left is the same" "$dir"
try "its warning" marks 1 "warning requests 2 and 4 have the Linux header and run as Full in both runs; under the first header they are denied low" "$dir"
try "the line of its write" marks 1 " 2 linux stp-passthru phy 0: write LBA 3 count 1 0 success; ATA 50h 00h success 0 success; ATA 50h 00h success runs as Full; denied low under the first header" "$dir"
try "the line of its read" marks 1 " 3 linux stp-passthru phy 0: read LBA 3 count 1 0 success; ATA 50h 00h success 0 success; ATA 50h 00h success" "$dir"
try "it has no trial" unmarked "tried:" "$dir"
dir=$(with linux_tally session.txt "linux set-phy-info phy=0\nlinux set-phy-info phy=1\nlinux get-link-errors phy=0 reset=1\n")
try "the tally of a Linux console that writes" marks 1 " denied 0 0" "$dir"
try "what stands below it" marks 1 "Linux requests are never denied; 3 need more than the low level" "$dir"
dir=$(with linux_reads session.txt "linux get-phy-info\nlinux get-link-errors phy=0\n$read_disk\n")
try "a Linux console that reads" marks 0 "mark: 0 of 3 differ, 0 denied low, 0 Linux requests above the low level; what they left is the same" "$dir"
try "it has no warning" unmarked warning "$dir"
try "all levels of one that reads" marks 1 "mark: 0 of 3 differ, denied: 0 None, 0 Restricted, 0 Limited, 0 Full, Linux requests above the level: 3 None, 0 Restricted, 0 Limited, 0 Full; what they left is the same" --levels "$dir"
dir=$(with linux_clears session.txt "linux get-phy-info\nlinux get-link-errors phy=0 reset=1\nlinux get-link-errors phy=0 reset=2\n")
try "a Linux console that clears counters" marks 1 "mark: 0 of 3 differ, 0 denied low, 1 Linux request above the low level; what they left is the same" "$dir"
try "the line of its reset" marks 1 " 2 linux get-link-errors phy 0, reset 0 success 0 success runs as Full; denied low under the first header" "$dir"
try "all levels of one that clears counters" marks 1 "Linux requests above the level: 3 None, 1 Restricted, 1 Limited, 0 Full; what they left is the same" --levels "$dir"
try "sessions without Linux requests say nothing of it" unmarked Linux samples/writes
dir=$(with linux_one session.txt "linux set-phy-info phy=9\n")
try "a change of a phy that does not exist" marks 1 "warning request 1 has the Linux header and runs as Full in both runs; under the first header it is denied low" "$dir"
dir=$(levels linux_both "CSMI=Restricted;" "CSMI=Limited;") && echo "$write_disk" >"$dir/session.txt"
try "a write above both levels" marks 1 "runs as Full; denied low and high under the first header" "$dir"
dir=$(levels linux_limited "CSMI=Limited;" "CSMI=Full;") && echo "linux stp-passthru phy=0 destination=5000C50000000001 command=E8h" >"$dir/session.txt"
try "Limited is enough for a write buffer" marks 0 "0 Linux requests above the low level" "$dir"
dir=$(levels linux_none "CSMI=None;" "CSMI=Full;") && echo "linux get-phy-info" >"$dir/session.txt"
try "None is enough for nothing" marks 1 "0 denied low, 1 Linux request above the low level" "$dir"
dir=$(with linux_many session.txt "$(for n in 1 2 3 4 5 6 7 8 9 10; do printf 'linux set-phy-info phy=0\\n'; done)")
try "requests that are counted" marks 1 "warning requests 1, 2, 3, 4, 5, 6, 7, 8 and 2 more have the Linux header" "$dir"

# 3: both kinds in one list
dir=$(with linux_mixed session.txt "set-phy-info phy=0 maximum=8\nlinux get-phy-info\n$write_disk\nstp-passthru phy=0 destination=5000C50000000001 command=20h lba=3 count=1 data=00*512\nstp-passthru phy=0 destination=5000C50000000001 command=30h lba=4 count=1 data=11*512\nlinux get-link-errors phy=0\n")
try "Linux requests are given to both runs" marks 1 "tried: without the 2 requests denied low, the high run gets the replies of the low run and leaves what it left" "$dir"
try "a Linux request meets what a denied one did" marks 1 " phy 0 programmed-maximum 9 (3.0 Gb/s) 8 (1.5 Gb/s)" "$dir"
try "the mark of both kinds" marks 1 "mark: 3 of 6 differ, 2 denied low, 1 Linux request above the low level; 2 values and 1 sector left differ" "$dir"
try "a Linux write is the same in both runs" unmarked "LBA 3," "$dir"
dir=$(exercise linux_asked) && echo "linux stp-passthru phy=2 destination=5000C50000000003 command=ECh data=00*512" >>"$dir/session.txt"
try "a SAS device that Linux asks like a disk" marks 0 "warning phy 2: what is attached looks like a disk" "$dir"

# 4: no mark where no request gets past its header's checks
dir=$(with linux_headers session.txt "linux get-phy-info direction=2\nlinux get-phy-info direction=256\nlinux get-phy-info length=2052\nlinux get-phy-info length=2073\nlinux get-phy-info length=19\nlinux get-phy-info length=0\nlinux request control=99\nlinux ssp-passthru\nlinux get-phy-info control=CC770014h\nlinux raw control=20 00*19\nlinux raw control=20\n")
try "no Linux request gets past its header's checks" no_mark "no request gets past its header's checks" "$dir"
try "Direction 2 is 3" no_mark " 1 linux get-phy-info 3 invalid parameter 3 invalid parameter" "$dir"
try "Direction 256 is 3" no_mark " 2 linux get-phy-info 3 invalid parameter 3 invalid parameter" "$dir"
try "a Length without its 20 bytes is 3" no_mark " 3 linux get-phy-info 3 invalid parameter 3 invalid parameter" "$dir"
try "a Length past the buffer is 3" no_mark " 4 linux get-phy-info 3 invalid parameter 3 invalid parameter" "$dir"
try "a Linux number is 2" no_mark " 9 linux control code CC770014h 2 bad control code 2 bad control code" "$dir"
try "19 bytes are 100" no_mark "10 linux get-phy-info, 19 bytes, no header call 100 buffer too short" "$dir"
try "it has no warning either" unmarked "warning" "$dir"
try "no mark, --csv" marks 2 "no mark,,\"no request gets past its header's checks, so no level was asked for anything\",,,,,," --csv "$dir"
try "no mark, --levels" no_mark "no request gets past its header's checks" --levels "$dir"
dir=$(with linux_one_more session.txt "linux get-phy-info direction=2\nlinux get-link-errors reset=2\n")
try "code 3 of a Linux request's own check is past its header" marks 0 "mark: 0 of 2 differ, 0 denied low, 0 Linux requests above the low level" "$dir"
dir=$(with linux_direction session.txt "linux set-phy-info phy=0 direction=0\n")
try "Direction is not held against the code" marks 1 "1 Linux request above the low level" "$dir"
dir=$(with linux_damaged_write session.txt "linux get-phy-info\nlinux set-phy-info phy=0 direction=2\nlinux set-phy-info phy=0 length=8\n")
try "a write that its header stops is above no level" marks 0 "0 Linux requests above the low level" "$dir"
dir=$(with linux_after_first session.txt "get-phy-info header-length=27\nlinux get-phy-info\n")
try "one Linux request is enough for a mark" marks 0 "mark: 0 of 2 differ" "$dir"

# 5: the page
page=$work/linux.html
linux_page() {
    "$lab" --html "$page" samples/linux >"$work/printed" 2>"$work/errors"
    [ $? -eq 1 ] && diff /dev/null "$work/errors" && self_contained &&
        has 1 '<p class="mark">mark: 2 of 15 differ, 1 denied low, 2 Linux requests above the low level; 1 value and 0 sectors left differ</p>' &&
        has 1 '<p class="warning">warning: requests 8 and 9 have the Linux header' &&
        has 1 '<p class="note">Linux requests are never denied; 2 need more than the low level</p>' &&
        has 2 '<tr class="above"><td class="number">[89]</td>.*<td class="word">runs as Full; denied low under the first header</td></tr>' &&
        has 2 '<tr class="differs"><td class="number">1[12]</td>' && has 14 '<td class="request">linux ' &&
        has 1 '<th>no</th><th>request</th><th>low</th><th>high</th><th>remarks</th>' && has 5 '<th>low</th><th>high</th><th>differs</th>'
}
try "the page of Linux requests" linux_page
# With all levels the colour goes by Restricted: None denies what reads, too.
linux_levels_page() {
    "$lab" --levels --html "$page" samples/linux >/dev/null
    [ $? -eq 1 ] && has 2 '<tr class="above"><td class="number">[0-9]*</td>' &&
        has 2 '<tr class="above"><td class="number">[89]</td>.*runs as Full; denied at None, Restricted and Limited under the first header</td></tr>' &&
        has 8 '<tr class="same"><td class="number">[0-9]*</td>.*<td class="word">runs as Full; denied at None under the first header</td></tr>' &&
        has 2 '<tr class="differs"><td class="number">1[12]</td>' &&
        has 1 '<th>None</th><th>Restricted</th><th>Limited</th><th>Full</th><th>remarks</th>'
}
try "the page of Linux requests at all levels" linux_levels_page
other_page() {
    "$lab" --html "$page" samples/writes >/dev/null
    has 0 above
}
try "a page without them has none of their colours" other_page

# 6: 200,000 of them
dir=$(exercise many_linux) && cp samples/linux/adapter.txt "$dir/" && grep -v '^#' samples/linux/session.txt >"$work/script"
awk -v file="$work/script" 'BEGIN { while ((getline line < file) > 0) script[n++] = line; for (i = 0; i < 200000; i++) print script[i % n] }' >"$dir/session.txt"
linux_in_seconds() {
    local start=$SECONDS
    cp samples/linux/low.txt samples/linux/high.txt "$1/" &&
        marks 1 "26666 Linux requests above the low level" --csv "$1" && [ $((SECONDS - start)) -lt 60 ]
}
try "200,000 requests of both headers in seconds" linux_in_seconds "$dir"
rm -r "$dir"
