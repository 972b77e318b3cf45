# Sourced by ../run. The front page: codes 2, 3 and 30 as the report shows them, their whole replies, and files of the old layout.

front_page="get-cntlr-config\nget-cntlr-status\nget-connector-info\n"

# 1: the report
try "the front page of samples/good" marks 0 " serial \"CL-0007423\" \"CL-0007423\"" samples/good
try "its board" marks 0 " board 30201000h, subsystem 3020h of vendor 1000h 30201000h, subsystem 3020h of vendor 1000h" samples/good
try "its status" marks 0 " status good good" samples/good
try "a connector of it" marks 0 " phy 3 connector \"J1\", pinout sff-8484-lane-4, location internal" samples/good
try "sessions that do not ask for it have none" unmarked "front page" samples/writes
dir=$(with front_defaults session.txt "$front_page") && cp samples/writes/adapter.txt "$dir/"
try "an adapter that says nothing of it" marks 0 " slot unknown unknown" "$dir"
try "is a SAS adapter on PCI" marks 0 " flags sas-hba sas-hba" "$dir"
try "with connectors that nobody knows" marks 0 " phy 0 connector \"\", pinout unknown, location unknown" "$dir"
dir=$(with front_offline session.txt "$front_page") && sed -i 's/^status.*/status status=offline offline-reason=backside-bus-degraded/' "$dir/adapter.txt"
try "a controller that is offline" marks 0 " status offline, backside-bus-degraded offline, backside-bus-degraded" "$dir"
dir=$(levels front_none "CSMI=None;" "CSMI=Restricted;") && printf '%b' "$front_page" >"$dir/session.txt"
try "a run that is denied it" marks 1 " slot - 3" "$dir"
try "it is denied at None" marks 1 "mark: 3 of 3 differ, 3 denied low; what they left is the same" "$dir"
try "its fields are shown" marks 1 "\"what\": \"phy 1 pinout\", \"values\": [\"0\", \"00020000h (sff-8484-lane-2)\"]" --json "$dir"
try "a body of zeros is on no bus" marks 1 "\"what\": \"bus\", \"values\": [\"0\", \"3 (pci)\"]" --json "$dir"
try "all levels of it" marks 1 " status - good good good" --levels "$dir"
dir=$(levels front_two "CSMI=Restricted;" "CSMI=Full;") && printf '%b' "set-phy-info phy=0\n$front_page" >"$dir/session.txt"
try "Restricted is enough for it" marks 1 "mark: 1 of 4 differ, 1 denied low" "$dir"
dir=$(with front_linux session.txt "linux get-cntlr-config\nlinux get-cntlr-status\nlinux get-connector-info\n")
try "a Linux console that asks for it" marks 0 "mark: 0 of 3 differ, 0 denied low, 0 Linux requests above the low level; what they left is the same" "$dir"
try "and is shown it" marks 0 " serial \"CL-0007423\" \"CL-0007423\"" "$dir"
try "all levels of a Linux one" marks 1 "Linux requests above the level: 3 None, 0 Restricted, 0 Limited, 0 Full" --levels "$dir"
try "--json of it" marks 0 "{\"what\": \"class\", \"values\": [\"hba\", \"hba\"]}" --json samples/good
try "--json without it" marks 1 "\"front_page\": []" --json samples/writes
try "--csv of it" marks 0 "front,,firmware,1.26.0.0,1.26.0.0,no," --csv samples/good
front_in_page() {
    "$lab" --html "$page" samples/good >/dev/null && self_contained && has 1 '<h2>Front page</h2>' &&
        has 1 '<tr class="same"><td class="what">slot</td><td class="value">3</td><td class="value">3</td>' || return 1
    "$lab" --html "$page" "$work/front_none" >/dev/null
    has 1 '<tr class="differs"><td class="what">slot</td><td class="value">-</td><td class="value">3</td>'
}
try "the page of it" front_in_page

# 2: whole replies. Samples have block 0, 4 phys, a block of rows, the controller's and 4 connectors.
# part FILE AT COUNT: so many bytes of a file
part() {
    tail -c "+$(($2 + 1))" "$1" | head -c "$3"
}
# expected SAMPLE: what codes 2, 3 and 30 have to show, by the sample's file
expected() {
    local n file=samples/$1/adapter.bin
    part "$file" 3072 212
    for n in 0 1 2 3; do part "$file" $((3584 + 512 * n)) 36; done
    head -c $((28 * 36)) /dev/zero
}
# shows SAMPLE BEFORE REPLIES: the first three replies, each behind so many bytes
shows() {
    local before=$2 replies=$3
    { part "$replies" "$before" 176 && part "$replies" $((2 * before + 176)) 36 && part "$replies" $((3 * before + 212)) 1152; } >"$work/shown" &&
        cmp <(expected "$1") "$work/shown"
}
whole_replies() {
    "$lab" --replies "$work/front_good" samples/good >/dev/null
    "$lab" --replies "$work/front_linux_replies" samples/linux >/dev/null
    shows good 32 "$work/front_good/low.replies" && shows good 32 "$work/front_good/high.replies" &&
        shows linux 32 "$work/front_linux_replies/low.replies.both" && shows linux 32 "$work/front_linux_replies/high.replies.both"
}
try "whole replies of codes 2, 3 and 30" whole_replies
# Whatever the body was, and at None nothing of it.
filled_replies() {
    local dir
    dir=$(levels front_filled "CSMI=None;" "CSMI=Full;") &&
        printf '%b' 'get-cntlr-config serial=FF*81 reserved=FF*7 return-code=9\nget-cntlr-status reserved=FF*28\nget-connector-info references=FF*1152\n' >"$dir/session.txt"
    "$lab" --replies "$work/front_filled_replies" "$dir" >/dev/null
    shows good 32 "$work/front_filled_replies/high.replies" &&
        diff <("$kit" session-text "$work/front_filled_replies/low.replies" -) - <<'END'
get-cntlr-config return-code=4 serial=FF*81 reserved=FFFFFFFFFFFFFF
get-cntlr-status return-code=4 reserved=FF*28
get-connector-info return-code=4 references=FF*1152
END
}
try "whatever the body was" filled_replies
in_words() {
    "$kit" reply "$work/front_good/requests" "$work/front_good/low.replies" "$1" | grep -qxF -- "$2" &&
        "$kit" reply --both "$work/front_linux_replies/requests.both" "$work/front_linux_replies/low.replies.both" "$1" | grep -qxF -- "$3"
}
try "labkit reply, the configuration" in_words 1 '* serial             "CL-0007423"' '* serial             "CL-0009118"'
try "labkit reply, a name" in_words 1 '* class              5 (hba)' '* bus                3 (pci)'
try "labkit reply, the status" in_words 2 '* status             1 (good)' '* status             1 (good)'
try "labkit reply, a connector" in_words 3 '* phy 2              connector "J1", pinout sff-8484-lane-3, location internal' '* phy 2              connector "J5", pinout sff-8470-lane-3, location external'
try "labkit reply, no phy" in_words 3 '  phys 4 to 31       00*36 each' '  phys 4 to 31       00*36 each'

# 3: every bit of a pinout, on the last phy
pinouts() {
    local bit known
    dir=$(with pinouts session.txt "get-connector-info\n") || return 1
    for bit in $(seq 0 31); do
        printf 'phy\nphy pinout=%Xh\nrow\n' $((1 << bit)) >"$dir/adapter.txt"
        known=$((0x000F0F03 >> bit & 1))
        if [ "$known" -eq 1 ]; then marks 0 "mark: 0 of 1 differ" "$dir"; else no_mark "the opening refuses the adapter of adapter.txt: 104 count or field" "$dir"; fi || { echo "bit $bit" && return 1; }
    done
}
try "every bit of a pinout" pinouts
dir=$(exercise pinout) && sed -i 's/pinout=sff-8484-lane-2/pinout=sff-8484-lane-2+80000000h/' "$dir/adapter.txt"
pinout_line="phy 1: pinout 80020000h has bits that no pinout has (80000000h, outside 000F0F03h): the opening refuses it with 104"
try "a pinout that is refused" no_mark "warning $pinout_line" "$dir"
kit_warns_of_pinout() {
    "$kit" adapter "$1" "$work/made" 2>"$work/errors" && diff <(echo "labkit: warning: $1: $pinout_line") "$work/errors"
}
try "labkit adapter warns of it" kit_warns_of_pinout "$dir/adapter.txt"
dir=$(exercise names) && sed -i 's/connector="J1" pinout=sff-8484-lane-1/connector="sixteen letters."/' "$dir/adapter.txt"
try "a connector's name that does not end" marks 0 "warning phy 0: the connector's name has no zero byte behind it" "$dir"
bad_word() {
    echo "$2" >"$work/word.txt"
    refuses 1 "labkit: $work/word.txt: line 1: $1" "$kit" adapter "$work/word.txt" "$work/x"
}
try "a bus that has no name" bad_word "bus: 'usb' is no number and none of pci, pcmcia" "controller bus=usb"
try "a number that is too large" bad_word "location: FFFh is over 255" "phy location=FFFh"
try "a flag that has no name" bad_word "location: 'inside' is no number and none of unknown, internal, external, switchable, auto, not-present, not-connected" "phy location=internal+inside"

# 4: files of the layout that ended behind the rows
head -c 3072 samples/good/adapter.bin >"$work/old.bin"
dir=$(exercise old_layout) && rm "$dir/adapter.txt" && cp "$work/old.bin" "$dir/adapter.bin"
old_words="the opening refuses the adapter of adapter.bin: 102 file length; 3072 bytes are the old layout, which ended behind the rows: labkit upgrade OLD NEW makes a file of the present one"
try "an adapter.bin of the old layout" no_mark "no mark: $old_words" "$dir"
try "--json of it" marks 2 "\"no_mark\": \"$old_words\"" --json "$dir"
"$kit" adapter-text "$work/old.bin" "$dir/adapter.txt" && rm "$dir/adapter.bin"
try "its description" no_mark "3072 bytes are the old layout, which ended behind the rows: without its length line it is of the present one" "$dir"
sed -i '/^length/d' "$dir/adapter.txt"
try "without its length line" marks 0 "mark: 0 of 15 differ" "$dir"
rm "$dir/adapter.txt" && head -c 3584 samples/good/adapter.bin >"$dir/adapter.bin"
try "a file of neither layout" no_mark "no mark: the opening refuses the adapter of adapter.bin: 102 file length" "$dir"
try "is not taken for an old one" unmarked "old layout" "$dir"
upgraded() {
    "$kit" upgrade "$work/old.bin" "$work/new.bin" && "$kit" adapter-text "$work/new.bin" "$work/new.txt" &&
        "$kit" adapter-text "$work/old.bin" "$work/old.txt" && diff <(cat "$work/new.txt" && echo "length 3072") "$work/old.txt" &&
        "$kit" upgrade "$work/old.bin" - | cmp - "$work/new.bin" && cmp -n 3072 "$work/old.bin" "$work/new.bin" &&
        cp "$work/new.bin" "$1/adapter.bin" && marks 0 " slot unknown unknown" "$1" && marks 0 "mark: 0 of 15 differ" "$1"
}
try "labkit upgrade" upgraded "$dir"
sample_upgraded() {
    head -c 3072 samples/writes/adapter.bin >"$work/old_writes.bin" && "$kit" upgrade "$work/old_writes.bin" "$work/new_writes.bin" && cmp "$work/new_writes.bin" samples/writes/adapter.bin
}
try "labkit upgrade makes what a description makes" sample_upgraded
kit_refuses() {
    local line=$1
    shift
    refuses 1 "labkit: $line" "$kit" upgrade "$@" && [ ! -e "$work/never" ]
}
cp "$work/old.bin" "$work/old_copy.bin"
try "labkit upgrade, a file that is there" kit_refuses "$work/old_writes.bin is there already, and nothing is overwritten" "$work/old.bin" "$work/old_writes.bin"
try "labkit upgrade, onto itself" kit_refuses "$work/old.bin is there already, and nothing is overwritten" "$work/old.bin" "$work/old.bin"
ln -s old.bin "$work/link.bin" && ln "$work/old.bin" "$work/hard.bin"
try "labkit upgrade, onto itself through a link" kit_refuses "$work/link.bin is there already, and nothing is overwritten" "$work/old.bin" "$work/link.bin"
try "labkit upgrade, onto itself by another name" kit_refuses "$work/hard.bin is there already, and nothing is overwritten" "$work/old.bin" "$work/hard.bin"
try "the old file is as it was" cmp "$work/old.bin" "$work/old_copy.bin"
try "labkit upgrade, a present file" kit_refuses "samples/good/adapter.bin: it is of the present layout already, which has 5632 bytes for 4 phys and 3 rows" samples/good/adapter.bin "$work/never"
# Eight blocks: seven phys had them, three have them.
for phys in 3 7; do printf 'phy\n%.0s' $(seq "$phys") >"$work/phys.txt" && "$kit" adapter "$work/phys.txt" "$work/phys-$phys.bin"; done
head -c 4096 "$work/phys-7.bin" >"$work/seven.bin"
try "labkit upgrade, eight blocks that are of the present layout" kit_refuses "$work/phys-3.bin: it is of the present layout already, which has 4096 bytes for 3 phys and 0 rows" "$work/phys-3.bin" "$work/never"
try "labkit upgrade, eight blocks that are of the old" eval '"$kit" upgrade "$work/seven.bin" - | cmp - "$work/phys-7.bin"'
head -c 3071 samples/good/adapter.bin >"$work/cut.bin"
try "labkit upgrade, a file cut short" kit_refuses "$work/cut.bin: it has 3071 bytes; for 4 phys and 3 rows the old layout has 3072, and the present one 5632" "$work/cut.bin" "$work/never"
printf '\001' | dd of="$work/old_copy.bin" bs=1 seek=1100 conv=notrunc 2>"$work/log"
try "labkit upgrade, a wrong check" kit_refuses "$work/old_copy.bin: the check of its block 2 is wrong" "$work/old_copy.bin" "$work/never"
: >"$work/none.bin"
try "labkit upgrade, an empty file" kit_refuses "$work/none.bin: it has 0 bytes, and an adapter file has 512 at least" "$work/none.bin" "$work/never"
garbage "$work/garbage.bin"
try "labkit upgrade, garbage" kit_refuses "$work/garbage.bin: the check of its block 0 is wrong" "$work/garbage.bin" "$work/never"
try "labkit upgrade, no such file" kit_refuses "nowhere: No such file or directory (os error 2)" nowhere "$work/never"
try "labkit upgrade, no such folder" kit_refuses "nowhere/new.bin: No such file or directory (os error 2)" "$work/old.bin" nowhere/new.bin
# A limit of 1,024 bytes to a file, which has 5,632: what was written of it goes.
no_room() (
    trap '' XFSZ && ulimit -f 1 && kit_refuses "$work/never: File too large (os error 27)" "$work/old.bin" "$work/never"
)
try "labkit upgrade, no room for the file" no_room
# An exercise that was made before: its binary is what the text described then.
dir=$(exercise old_beside) && cp "$work/old.bin" "$dir/adapter.bin" && touch -d '+1 hour' "$dir/adapter.bin"
try "an adapter.bin of the old layout beside its text" marks 0 "warning adapter.txt is run; adapter.bin beside it is what it described in the old layout: make it anew with labkit adapter" "$dir"
head -c 3072 samples/refusals/adapter.bin >"$dir/adapter.bin" && touch -d '+1 hour' "$dir/adapter.bin"
try "another adapter.bin of the old layout beside a text" lab_refuses "$dir/adapter.bin is newer than adapter.txt and is not what it describes; remove the one that is not to run" "$dir"

# 5: what docs/LAB.md shows
front_documented() {
    grep -qxF "    labkit upgrade OLD NEW" docs/LAB.md && grep -q '^    front page  ' docs/LAB.md &&
        ! sed -n '/^    front page/,/^Where the session/s/^    //p' docs/LAB.md | grep . | grep -vxFf "$here/lab/good.out"
}
try "the front page in docs/LAB.md" front_documented
# example HEADING KIND: the lines first shown below a heading are a description.
example() {
    awk -v heading="$1" '$0 == heading { on = 1 } on && /^    / { print substr($0, 5); shown = 1 } on && shown && /^$/ { exit }' docs/LAB.md >"$work/example.txt" &&
        [ -s "$work/example.txt" ] && "$kit" "$2" "$work/example.txt" "$work/example"
}
try "the adapter in docs/LAB.md" example "## An adapter" adapter
try "the session in docs/LAB.md" example "## A session" session
