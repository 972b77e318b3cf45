# Sourced by ../run. What the mark goes by, when there is none, what stands beside a code, and the two levels.

# marks STATUS WORDS ARGS..: ./lab ends with that status, prints these words, blanks made one, and nothing on standard error.
marks() {
    local status=$1 words=$2 got
    shift 2
    "$lab" "$@" >"$work/printed" 2>"$work/errors"
    got=$?
    [ $got -eq "$status" ] || { echo "status $got: $(head -n 2 "$work/errors")" && return 1; }
    diff /dev/null "$work/errors" && { tr -s ' ' <"$work/printed" | grep -qF -- "$words" || { tail -n 2 "$work/printed" && return 1; }; }
}

# no_mark WORDS ARGS..: status 2, the last line gives the reason, and no line gives a mark.
no_mark() {
    local words=$1
    shift
    marks 2 "$words" "$@" && tail -n 1 "$work/printed" | grep -q '^no mark: ' && ! grep -q '^mark: ' "$work/printed"
}

# with NAME FILE TEXT: an exercise whose file has that text.
with() {
    local dir
    dir=$(exercise "$1") && printf '%b' "$3" >"$dir/$2" && echo "$dir"
}

# levels NAME LOW HIGH: an exercise with these level texts.
levels() {
    local dir
    dir=$(with "$1" low.txt "$2") && printf '%b' "$3" >"$dir/high.txt" && echo "$dir"
}

# 1: whole replies, and what the runs left
try "the mark counts a reply whose code is the same" marks 1 "mark: 9 of 12 differ, 6 denied low; 6 values and 1 sector left differ" samples/writes
try "the data of that reply, with both values" marks 1 " data, 512 bytes 00*512 5A*512" samples/writes
resets="get-link-errors phy=0 reset=1\nget-link-errors phy=0\nget-link-errors phy=9 reset=1\nget-link-errors phy=0 reset=2\n"
dir=$(with counters session.txt "$resets")
try "counters left, with both values" marks 1 " phy 0 invalid-dword 3 0" "$dir"
try "the rest is the same" marks 1 "programmed rates: the same" "$dir"
try "clearing counters is a write" marks 1 "mark: 3 of 4 differ, 2 denied low; 2 values and 0 sectors left differ" "$dir"
try "its line" marks 1 " 1 get-link-errors phy 0, reset 4 denied, write attempted 0 success differs" "$dir"
try "a later reply shows them, with both values" marks 1 " loss-of-sync 1 0" "$dir"
try "a phy that is not there is denied too" marks 1 " 3 get-link-errors phy 9, reset 4 denied, write attempted 2002 phy does not exist differs" "$dir"
try "another reset byte is no reset" marks 1 " 4 get-link-errors phy 0, reset 2 3 invalid parameter 3 invalid parameter" "$dir"
try "the denied resets are the difference" marks 1 "tried: without the 2 requests denied low, the high run gets the replies of the low run" "$dir"
dir=$(levels counters_limited "CSMI=Limited;" "CSMI=Full;") && printf '%b' "$resets" >"$dir/session.txt"
try "Limited is not enough for a reset" marks 1 "mark: 3 of 4 differ, 2 denied low; 2 values and 0 sectors left differ" "$dir"
dir=$(levels counters_both "CSMI=Restricted;" "CSMI=Limited;") && printf '%b' "$resets" >"$dir/session.txt"
try "a reset that both levels deny" marks 0 "mark: 0 of 4 differ, 2 denied low; what they left is the same" "$dir"
dir=$(with answers session.txt "get-phy-info\nset-phy-info phy=1 maximum=8 class=2\nget-phy-info\n")
try "fields of a reply, with both values" marks 1 " phy 1 class 0 2" "$dir"
try "a rate of a reply in words" marks 1 " phy 1 programmed-maximum 9 (3.0 Gb/s) 8 (1.5 Gb/s)" "$dir"
try "the denied requests are the difference" marks 1 "tried: without the 1 request denied low, the high run gets the replies of the low run" "$dir"

# 2: no mark for a broken exercise
dir=$(with refused_102 adapter.bin "") && rm "$dir/adapter.txt"
try "an empty adapter" no_mark "the opening refuses the adapter of adapter.bin: 102 file length" "$dir"
dir=$(exercise refused_103) && echo "damage 1 9 1" >>"$dir/adapter.txt"
try "a wrong check" no_mark "the opening refuses the adapter of adapter.txt: 103 block check" "$dir"
dir=$(exercise refused_104) && echo "phy port=31" >>"$dir/adapter.txt"
try "a wrong field" no_mark "104 count or field" "$dir"
dir=$(exercise refused_105) && echo "row address=5000C50000000003 target=9" >>"$dir/adapter.txt"
try "a shared row" no_mark "105 shared row" "$dir"
dir=$(with empty_text session.txt "# nothing\n")
try "a session of comments" no_mark "the session of session.txt is empty" "$dir"
dir=$(with empty_file session "") && rm "$dir/session.txt"
try "an empty session" no_mark "the session of session is empty" "$dir"
dir=$(with headers session.txt 'get-phy-info signature="CSMIALL"\nget-phy-info header-length=27\nget-phy-info length=9\nraw 0102\nrequest control=99\nssp-passthru\n')
try "no request gets past its header's checks" no_mark "no request gets past its header's checks" "$dir"
try "its answers are shown" no_mark "2 bad control code" "$dir"
dir=$(with one_header session.txt "get-link-errors reset=2\nraw 0102\n")
try "code 3 of a request's own check is past its header" marks 0 "mark: 0 of 2 differ, 0 denied low" "$dir"
try "a cut session is marked up to the cut" marks 1 "mark: 4 of 17 up to the cut differ, 4 denied low" samples/refusals
try "and says where" marks 1 "the session is cut at request 18, byte 3467: its length says 28 bytes, and there are 3" samples/refusals
dir=$(with cut_length session.txt "get-phy-info\ntail 0102\n")
try "a length cut short" marks 0 "the session is cut at request 2, byte 2084: of its length of 4 bytes there are 2" "$dir"
dir=$(with oversized session.txt "get-phy-info\ntail 01800000+00*40000\n")
try "an oversized request" marks 0 "the session is cut at request 2, byte 2084: its length says 32769, over 32768" "$dir"
dir=$(with cut_first session.txt "tail 05\n")
try "a session cut in its first request" no_mark "the session is cut at request 1, byte 0" "$dir"

# 3: status and error beside the code
disk="stp-passthru phy=0 destination=5000C50000000001"
dir=$(with statuses session.txt "$disk command=20h lba=16 count=1 data=00*512\n$disk command=20h device=0 count=1 data=00*512\n$disk command=E5h\n")
try "past the last sector" marks 0 "0 success; ATA 51h 10h error, past the last sector" "$dir"
try "aborted" marks 0 "0 success; ATA 51h 04h error, aborted" "$dir"
try "a success" marks 0 "0 success; ATA 50h 00h success" "$dir"

# 4: the two levels
try "a lower text that gives no level" no_mark "low.txt gives no level: 101 bad level text" "$(levels low_101 "CSMI=restricted;" "CSMI=Full;")"
try "a higher text that gives no level" no_mark "high.txt gives no level: 101 bad level text" "$(levels high_101 "CSMI=None;" "CSMI=Full")"
try "a text over 1,024 bytes" no_mark "high.txt gives no level" "$(levels long "CSMI=None;" "CSMI=Full;$(printf '%1020s')")"
try "levels the wrong way round" no_mark "low.txt gives Full and high.txt gives Restricted" "$(levels turned "CSMI=Full;" "CSMI=Restricted;")"
try "equal levels" marks 0 "warning both texts give Limited, so the runs cannot differ" "$(levels equal "CSMI=Limited;" "CSMI=Limited;")"
try "a text without entry" marks 0 "warning low.txt has no entry CSMI=, so it gives Limited" "$(levels default "" "CSMI=Full;")"
try "level texts with line ends of two bytes" marks 0 "high Full, by high.txt: CSMI=Full;" "$(levels two_bytes "CSMI=Limited;\r\n" "CSMI=Full;\r\n")"
dir=$(levels line_end "CSMI=None;" "A=b;\nCSMI=Full;\n")
try "an entry behind a line end" marks 1 "warning high.txt has no entry CSMI=, so it gives Limited" "$dir"

# 7: what free bytes make of a console
odd() {
    local dir
    dir=$(exercise "$1") && sed -i "/^phy .*0001 /s/\$/ $2/" "$dir/adapter.txt" && echo "$dir"
}
try "identify type 0" marks 0 "warning phy 0: its own identify device type is 0" "$(odd identify device-type=0)"
try "an attached phy identifier" marks 0 "warning phy 0: the attached phy identifier is 5" "$(odd attached attached-identifier=5)"
dir=$(exercise protocols) && sed -i 's/attached=sas/attached=sata attached-target=04h/' "$dir/adapter.txt"
try "no SATA bit" marks 0 "warning phy 2: what is attached looks like a disk, but its target protocols 04h have no SATA bit" "$dir"
dir=$(exercise asked) && echo "stp-passthru phy=2 destination=5000C50000000003 command=ECh data=00*512" >>"$dir/session.txt"
try "a SAS device that is asked like a disk" marks 0 "warning phy 2: what is attached looks like a disk" "$dir"
try "no warnings about the samples" eval '! grep -q warning "$here"/lab/{good,writes,refusals,spin-up,firmware,levels}.out'
kit_warns() {
    "$kit" adapter "$1" "$work/made" 2>"$work/errors" && grep -qF "labkit: warning: $1: phy 0: its own identify device type is 0" "$work/errors"
}
try "labkit adapter warns" kit_warns "$work/identify/adapter.txt"
dir=$(exercise phys) && for n in 5 6 7 8; do echo "phy" >>"$dir/adapter.txt"; done
try "8 phys for the program" refuses 1 "labkit: $dir/adapter.txt: 8 phys, and the program takes up to 7 (it prints open 104); the library takes 32: labkit adapter --library" "$kit" adapter "$dir/adapter.txt" "$work/made"
try "8 phys for the library" "$kit" adapter --library "$dir/adapter.txt" "$work/made"
try "8 phys in ./lab" marks 0 "warning 8 phys: the program simulator takes up to 7" "$dir"

# More parts of a reply differ than are shown.
dir=$(with parts session.txt "$(for n in 0 1 2 3; do printf 'set-phy-info phy=%s maximum=8 class=2 minimum=8\\n' $n; done)get-phy-info\n")
try "parts that are counted" marks 1 " and 2 more" "$dir"
