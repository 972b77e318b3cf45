# Sourced by ../run. Disks held at spin-up: in the report and in replies, adapters that the opening refuses, and descriptions.

# 1: the report of the sample, in every form
try "a held disk in a reply" marks 1 "13 get-phy-info 0 success 0 success differs" samples/spin-up
try "spin-up hold among rates" marks 1 " phy 1 negotiated 3 (spin-up hold) 8 (1.5 Gb/s)" samples/spin-up
try "a hold that one run released" marks 1 " phy 0 spin-up-hold 1 0" samples/spin-up
try "one that was disabled meanwhile" marks 1 " phy 1 spin-up-hold 1 0" samples/spin-up
try "the disk of a fixed phy stays held" unmarked "phy 3 spin-up-hold" samples/spin-up
try "the denied releases are the difference" marks 1 "tried: without the 4 requests denied low, the high run gets the replies of the low run" samples/spin-up
try "holds, --csv" marks 1 "tables,,phy 0 spin-up-hold,1,0,yes," --csv samples/spin-up
try "rates, --csv" marks 1 "tables,,phy 0 negotiated,3 (spin-up hold),9 (3.0 Gb/s),yes," --csv samples/spin-up
try "holds, --json" marks 1 '{"what": "phy 0 spin-up-hold", "values": ["1", "0"]}' --json samples/spin-up
try "rates, --json" marks 1 '{"what": "phy 0 negotiated", "values": ["3 (spin-up hold)", "9 (3.0 Gb/s)"]}' --json samples/spin-up
try "holds, --levels" marks 1 " phy 0 spin-up-hold 1 1 1 0" --levels samples/spin-up
holds_in_page() {
    "$lab" --html "$page" samples/spin-up >/dev/null
    self_contained && has 1 '<td class="what">phy 0 spin-up-hold</td><td class="value">1</td><td class="value">0</td><td class="word">differs</td>' &&
        has 2 'phy 0 negotiated</td><td class="value">3 (spin-up hold)</td><td class="value">9 (3.0 Gb/s)</td>'
}
try "holds, the page" holds_in_page
if command -v python3 >/dev/null; then
    try "JSON and CSV of holds as python reads them" python_reads samples/spin-up 7
fi
# The indented lines of docs/LAB.md are the sample's.
documented_holds() {
    cat "$here/lab/spin-up.out" samples/spin-up/{adapter,session}.txt >"$work/shown"
    ! sed -n '/^### Disks held at spin-up/,/^## /s/^    //p' docs/LAB.md | grep . | grep -vxFf "$work/shown" && grep -qxF "    $(tail -n 1 "$here/lab/spin-up.out")" docs/LAB.md
}
try "samples/spin-up in docs/LAB.md" documented_holds

# 2: whole replies, and the program
"$lab" --replies "$work/held" samples/spin-up >/dev/null 2>&1
reply_has() {
    "$kit" reply "$work/held/requests" "$work/held/$1.replies" "$2" | grep -qF -- "$3"
}
try "labkit reply, a held disk" reply_has low 13 'phy 0              port 0, negotiated 3 (spin-up hold), programmed 8 (1.5 Gb/s) to 9 (3.0 Gb/s), end device 5000C50000000001'
try "labkit reply, a disk that was released" reply_has high 13 'phy 0              port 0, negotiated 9 (3.0 Gb/s), '
try "labkit reply, one that was disabled meanwhile" reply_has high 13 'phy 1              port 1, negotiated 8 (1.5 Gb/s), '
try "labkit reply, one of a fixed phy" reply_has high 13 'phy 3              port 3, negotiated 3 (spin-up hold), '
try "labkit reply, a read of a held disk" reply_has low 5 'stp-passthru (25): 2008 connection failed'
try "labkit reply, a read of one that was released" reply_has high 5 'stp-passthru (25): 0 success'
try "labkit reply, the signature of a held disk" reply_has low 3 '* signature-fis      3400500101000000000000000100000000000000'
try "the program prints the codes of it" as_the_program spin-up "$work/held"

# 3: what releases a disk
# held NAME SESSION [LOW HIGH]: an exercise on the sample's adapter.
held() {
    local dir
    dir=$(levels "$1" "${3:-CSMI=Restricted;}" "${4:-CSMI=Full;}") && cp samples/spin-up/adapter.txt "$dir/" && printf '%b' "$2" >"$dir/session.txt" && echo "$dir"
}
dir=$(held hold_kept "set-phy-info phy=0\nget-phy-info\n" "CSMI=Restricted;" "CSMI=Limited;")
try "a release that both levels deny" marks 0 "mark: 0 of 2 differ, 1 denied low; what they left is the same" "$dir"
dir=$(held hold_refused "set-phy-info phy=0 class=4\nset-phy-info phy=0 minimum=9 maximum=8\nset-phy-info phy=3\n")
try "changes that are refused release nothing" marks 1 "mark: 3 of 3 differ, 3 denied low; what they left is the same" "$dir"
dir=$(held hold_disabled "set-phy-info phy=1 negotiated=1\n")
try "a disabled phy is not held" marks 1 " phy 1 negotiated 3 (spin-up hold) 1 (disabled)" "$dir"
try "its hold" marks 1 " phy 1 spin-up-hold 1 0" "$dir"
try "that is all" marks 1 "mark: 1 of 1 differ, 1 denied low; 2 values and 0 sectors left differ" "$dir"
dir=$(held hold_failed "set-phy-info phy=1 minimum=9\n")
try "a release that fails the link" marks 1 " phy 1 negotiated 3 (spin-up hold) 2 (failed)" "$dir"
try "is counted" marks 1 " phy 1 reset-problem 0 1" "$dir"
dir=$(held hold_linux "linux set-phy-info phy=0\nlinux get-phy-info\n")
try "a Linux console that releases a disk" marks 1 "mark: 0 of 2 differ, 0 denied low, 1 Linux request above the low level; what they left is the same" "$dir"
dir=$(held hold_reads "get-phy-info\nget-sata-signature phy=0\nget-link-errors phy=0\nstp-passthru phy=0 destination=5000C50000000001 command=ECh data=00*512\n")
try "a console that only looks" marks 0 "mark: 0 of 4 differ, 0 denied low; what they left is the same" "$dir"

# 4: adapters that the opening refuses, and the warnings
holds() {
    local kind hold
    dir=$(with holds session.txt "get-phy-info\n") || return 1
    for kind in none sata sas edge fanout; do
        for hold in 0 1 2 3 128 255; do
            echo "phy attached=$kind spin-up-hold=$hold" >"$dir/adapter.txt"
            if [ $hold -eq 0 ] || [ $kind$hold = sata1 ]; then
                marks 0 "mark: 0 of 1 differ" "$dir" && ! grep -q warning "$work/printed"
            else
                no_mark "the opening refuses the adapter of adapter.txt: 104 count or field" "$dir" && grep -q "warning .*phy 0: the spin-up hold is $hold" "$work/printed"
            fi || { echo "$kind $hold" && return 1; }
        done
    done
}
try "each spin-up hold on each kind of phy" holds
# hold_rates: the rates of a disk that is held and of one that is not.
hold_rates() {
    local hold rate
    dir=$(with hold_rates session.txt "get-phy-info\n") || return 1
    for hold in 0 1; do
        for rate in 0 1 2 3 4 8 9 255; do
            echo "phy attached=sata spin-up-hold=$hold negotiated=$rate" >"$dir/adapter.txt"
            case $hold,$rate in
            0,1 | 0,9 | 1,1 | 1,3) marks 0 "mark: 0 of 1 differ" "$dir" && ! grep -q warning "$work/printed" ;;
            0,3 | 1,*) no_mark "the opening refuses the adapter of adapter.txt: 104 count or field" "$dir" && grep -q "warning .*phy 0: the spin-up hold is $hold, and negotiated is $rate " "$work/printed" ;;
            *) no_mark "the opening refuses the adapter of adapter.txt: 104 count or field" "$dir" && ! grep -q warning "$work/printed" ;;
            esac || { echo "$hold $rate" && return 1; }
        done
    done
}
try "each negotiated rate with and without a hold" hold_rates
kit_warns_of_hold() {
    echo "$1" >"$work/hold.txt"
    "$kit" adapter "$work/hold.txt" "$work/made" 2>"$work/errors" && diff <(echo "labkit: warning: $work/hold.txt: $2") "$work/errors"
}
try "labkit adapter warns of a held SAS device" kit_warns_of_hold "phy attached=sas spin-up-hold=1" "phy 0: the spin-up hold is 1, and no SATA disk is attached: the opening refuses it with 104"
try "labkit adapter warns of another number" kit_warns_of_hold "phy attached=sata spin-up-hold=2" "phy 0: the spin-up hold is 2, neither 0 nor 1: the opening refuses it with 104"
try "labkit adapter warns of a rate with a hold" kit_warns_of_hold "phy attached=sata spin-up-hold=1 negotiated=8" "phy 0: the spin-up hold is 1, and negotiated is 8 (1.5 Gb/s), where a held disk of these rates has 3 (spin-up hold) or 1 (disabled): the opening refuses it with 104"
try "labkit adapter warns of a rate without a hold" kit_warns_of_hold "phy attached=sata negotiated=3" "phy 0: the spin-up hold is 0, and negotiated is 3 (spin-up hold), which a held disk alone has: the opening refuses it with 104"
try "a hold that is no byte" bad_word "spin-up-hold: 256 is over 255" "phy spin-up-hold=256"

# 5: descriptions and files
described() {
    "$kit" adapter-text samples/spin-up/adapter.bin - | grep -qxF 'phy attached=sata signature=ata attached-address=5000C50000000002 highest=8 spin-up-hold=1'
}
try "a held disk in a description" described
upgraded_hold() {
    head -c 3072 samples/spin-up/adapter.bin >"$work/old_held.bin" && "$kit" upgrade "$work/old_held.bin" - | cmp - samples/spin-up/adapter.bin
}
try "labkit upgrade carries the byte" upgraded_hold
