# Sourced by ../run. Firmware: what runs and what is staged in the report, whole replies, what stages an image, and descriptions of images.

# 1: the report of the sample, in every form
try "an image that one run makes current" marks 1 " running 1.26.0.0 2.1.0.7" samples/firmware
try "one that it has staged" marks 1 " staged none 3.0.0.0" samples/firmware
try "stages that differ" marks 1 "the stages differ in 2 blocks" samples/firmware
try "blocks of the stage, with both values" marks 1 " stage block 1, 512 bytes 00*512 5A*508+A8D2D2D2" samples/firmware
try "what is staged is left different" marks 1 " firmware staged 0 1" samples/firmware
try "its revisions" marks 1 " firmware staged-major 0 3" samples/firmware
try "the revisions that run" marks 1 " controller major 1 2" samples/firmware
try "the mark counts the blocks" marks 1 "mark: 8 of 10 differ, 6 denied low; 5 values, 0 sectors and 2 blocks of the stage left differ" samples/firmware
try "the denied images are the difference" marks 1 "tried: without the 6 requests denied low, the high run gets the replies of the low run" samples/firmware
try "a damaged image is said to be one" marks 1 " 7 firmware-download: validate 2.2.0.0, 2 blocks, damaged 4 denied, write attempted 1 failed differs" samples/firmware
try "sessions without firmware show what runs" marks 1 " running 0.0.0.0 0.0.0.0" samples/writes
try "and that nothing is staged" marks 1 " staged none none" samples/writes
try "their stages are the same" marks 1 "the stages are the same" samples/writes
try "firmware, --csv" marks 1 "firmware,,running,1.26.0.0,2.1.0.7,yes," --csv samples/firmware
try "what is staged, --csv" marks 1 "firmware,,staged,none,3.0.0.0,yes," --csv samples/firmware
try "the stages, --csv" marks 1 'firmware,,stages,,,yes,"stage block 0, 505 bytes; stage block 1, 512 bytes"' --csv samples/firmware
try "stages that are the same, --csv" marks 1 "firmware,,stages,,,no," --csv samples/writes
try "blocks, --csv" marks 1 'stage,,"stage block 1, 512 bytes",00*512,5A*508+A8D2D2D2,yes,' --csv samples/firmware
try "firmware, --json" marks 1 '"firmware": {"running": "1.26.0.0", "staged": null}}, {' --json samples/firmware
try "what is staged, --json" marks 1 '"firmware": {"running": "2.1.0.7", "staged": "3.0.0.0"}}]' --json samples/firmware
try "the stages, --json" marks 1 '"stages_same": false,' --json samples/firmware
try "blocks that each run wrote, --json" marks 1 '"stage_blocks_written": [0, 2],' --json samples/firmware
try "stages that are the same, --json" marks 1 '"stages_same": true,' --json samples/writes
try "the mark, --json" marks 1 '"sectors_left": 0, "stage_blocks_left": 2}' --json samples/firmware
try "firmware, --levels" marks 1 " staged none none 3.0.0.0 3.0.0.0" --levels samples/firmware
try "the stages, --levels" marks 1 "the stages differ in 2 blocks" --levels samples/firmware
firmware_in_page() {
    "$lab" --html "$page" samples/firmware >/dev/null
    self_contained && has 1 '<h2>Firmware</h2>' && has 1 '<th>firmware</th><th>low</th><th>high</th><th>differs</th></tr>' &&
        has 1 '<tr class="differs"><td class="what">running</td><td class="value">1.26.0.0</td><td class="value">2.1.0.7</td><td class="word">differs</td>' &&
        has 1 '<tr class="differs"><td class="what">staged</td><td class="value">none</td><td class="value">3.0.0.0</td><td class="word">differs</td>' &&
        has 1 '<p class="note">the stages differ in 2 blocks</p>' && has 1 'stage block 1, 512 bytes</td><td class="value">00\*512</td>' || return 1
    "$lab" --html "$page" samples/good >/dev/null
    has 1 '<tr class="same"><td class="what">staged</td><td class="value">none</td><td class="value">none</td>' && has 1 '<p class="note">the stages are the same</p>'
}
try "firmware, the page" firmware_in_page
if command -v python3 >/dev/null; then
    try "JSON and CSV of firmware as python reads them" python_reads samples/firmware 8
fi

# 2: whole replies, and the program
"$lab" --replies "$work/firmware" samples/firmware >/dev/null 2>&1
download_reply() {
    "$kit" reply "$work/firmware/requests" "$work/firmware/$1.replies" "$2" | grep -qxF -- "$3"
}
try "labkit reply, an image that is validated" download_reply high 3 "firmware-download (4): 0 success"
try "labkit reply, the image" download_reply high 3 "  image              2.1.0.7, 2 blocks, checks right"
try "labkit reply, its flags" download_reply high 3 "  flags              00000001h (validate)"
try "labkit reply, the status" download_reply high 3 "  status             0 (success)"
try "labkit reply, the severity" download_reply high 3 "  severity           0 (information)"
try "labkit reply, an image that is denied" download_reply low 3 "firmware-download (4): 4 denied, write attempted"
try "labkit reply, its status is what was sent" download_reply low 3 "  status             0, as sent"
try "labkit reply, its severity too" download_reply low 3 "  severity           0, as sent"
try "labkit reply, a commit of nothing" download_reply high 2 "firmware-download (4): 1 failed"
try "labkit reply, a damaged image" download_reply high 7 "  image              2.2.0.0, 2 blocks, the check of block 1 wrong"
try "labkit reply, the revisions that run" download_reply high 6 "* minor              1"
try "the program prints the codes of it" as_the_program firmware "$work/firmware"
# Status and severity are set by code 0 alone.
statuses_set() {
    local dir
    dir=$(levels fw_status "CSMI=Restricted;" "CSMI=Full;") &&
        printf '%b' 'firmware-download validate status=reject severity=fatal reserved=01*32\nfirmware-download validate status=4 severity=2 damage=0\nfirmware-download commit status=65535 severity=1\nfirmware-download commit status=1\n' >"$dir/session.txt"
    "$lab" --replies "$work/fw_status_replies" "$dir" >/dev/null
    diff <("$kit" session-text "$work/fw_status_replies/high.replies" -) - <<'END' &&
firmware-download validate reserved=01*32
firmware-download validate return-code=1 status=downrev severity=error damage=0
firmware-download commit
firmware-download commit return-code=1 status=failed
END
        diff <("$kit" session-text "$work/fw_status_replies/low.replies" -) - <<'END'
firmware-download validate return-code=4 reserved=01*32 status=reject severity=fatal
firmware-download validate return-code=4 status=downrev severity=error damage=0
firmware-download commit return-code=4 status=65535 severity=warning
firmware-download commit return-code=4 status=failed
END
}
try "status and severity" statuses_set

# 3: what stages an image, and what makes it current
# download NAME SESSION [LOW HIGH]: an exercise on the sample's adapter.
download() {
    local dir
    dir=$(levels "$1" "${3:-CSMI=Restricted;}" "${4:-CSMI=Limited;}") && cp samples/firmware/adapter.txt "$dir/" && printf '%b' "$2" >"$dir/session.txt" && echo "$dir"
}
validate="firmware-download validate major=2 minor=1 release=7 blocks=2 fill=5Ah\n"
commit="firmware-download commit\n"
dir=$(download fw_staged "$validate")
try "an image that is staged and not made current" marks 1 "mark: 1 of 1 differ, 1 denied low; 4 values, 0 sectors and 2 blocks of the stage left differ" "$dir"
try "runs as before" marks 1 " running 1.26.0.0 1.26.0.0" "$dir"
dir=$(download fw_zeros "firmware-download validate\n")
try "an image of zeros" marks 1 "mark: 1 of 1 differ, 1 denied low; 1 value, 0 sectors and 1 block of the stage left differ" "$dir"
try "is staged with revisions 0" marks 1 " staged none 0.0.0.0" "$dir"
dir=$(download fw_current "$validate$commit")
try "a commit leaves the stage as it is" marks 1 "mark: 2 of 2 differ, 2 denied low; 3 values, 0 sectors and 2 blocks of the stage left differ" "$dir"
try "and nothing staged" marks 1 " staged none none" "$dir"
dir=$(download fw_same "firmware-download validate major=1 minor=26\n$commit")
try "an image of the revisions that run is seen by the stage alone" marks 1 "mark: 2 of 2 differ, 2 denied low; 0 values, 0 sectors and 1 block of the stage left differ" "$dir"
dir=$(download fw_twice "firmware-download validate major=1 blocks=32 fill=11h\nfirmware-download validate major=2 blocks=2 fill=22h\n$commit$commit")
try "the second of two images is made current" marks 1 " running 1.26.0.0 2.0.0.0" "$dir"
try "the rest of the first stays in the stage" marks 1 " stage block 31, 512 bytes 00*512 11*508+" "$dir"
try "once" marks 1 " 4 firmware-download: commit 4 denied, write attempted 1 failed" "$dir"
dir=$(download fw_kept "${validate}firmware-download validate major=9 damage=0\n$commit")
try "a damaged image leaves what was staged" marks 1 " running 1.26.0.0 2.1.0.7" "$dir"
dir=$(download fw_refused "firmware-download validate major=9 blocks=32 damage=31\nfirmware-download validate blocks=33\nfirmware-download flags=validate\nfirmware-download validate flags=0\n$commit")
try "images that are refused leave nothing" marks 1 "mark: 5 of 5 differ, 5 denied low; what they left is the same" "$dir"
dir=$(download fw_full "$validate$commit" "CSMI=Limited;" "CSMI=Full;")
try "Limited may bring firmware" marks 0 "mark: 0 of 2 differ, 0 denied low; what they left is the same" "$dir"
try "and the report shows it of both runs" marks 0 " running 2.1.0.7 2.1.0.7" "$dir"
dir=$(download fw_both "firmware-download validate major=1 minor=26 blocks=3\n$commit" "CSMI=Limited;" "CSMI=Full;")
try "an image of the revisions that run, made current in both runs" marks 0 "the stages are the same, 3 blocks written" "$dir"
try "its request lines" marks 0 " 1 firmware-download: validate 1.26.0.0, 3 blocks 0 success 0 success" "$dir"
try "its stages, --csv" marks 0 "firmware,,stages,,,no,3 blocks written" --csv "$dir"
try "its stages, --json" marks 0 '"stage_blocks_written": [3, 3],' --json "$dir"
both_in_page() {
    "$lab" --html "$page" "$dir" >/dev/null && has 1 '<p class="note">the stages are the same, 3 blocks written</p>'
}
try "its stages, the page" both_in_page
dir=$(download fw_none "$validate$commit" "CSMI=None;" "CSMI=Restricted;")
try "None and Restricted may not" marks 0 "mark: 0 of 2 differ, 2 denied low; what they left is the same" "$dir"
dir=$(download fw_linux "linux get-cntlr-config\nlinux ${validate}linux $commit")
try "a Linux console that brings firmware" marks 1 "mark: 0 of 3 differ, 0 denied low, 2 Linux requests above the low level; what they left is the same" "$dir"
try "is warned of" marks 1 "warning requests 2 and 3 have the Linux header and run as Full in both runs; under the first header they are denied low" "$dir"
try "its firmware" marks 1 " running 2.1.0.7 2.1.0.7" "$dir"
try "all levels of it" marks 1 "Linux requests above the level: 3 None, 2 Restricted, 0 Limited, 0 Full" --levels "$dir"
dir=$(download fw_mixed "linux $validate$commit")
try "staged by a Linux request, made current by one of the first header" marks 1 " running 1.26.0.0 2.1.0.7" "$dir"
try "still staged in the low run" marks 1 " staged 2.1.0.7 none" "$dir"
try "the stages are the same all the same" marks 1 "the stages are the same" "$dir"
dir=$(download fw_looks "get-cntlr-config\nget-cntlr-status\n")
try "a console that only looks" marks 0 "mark: 0 of 2 differ, 0 denied low; what they left is the same" "$dir"

# 4: no firmware where the session was not run
not_shown() {
    rm -f "$page"
    no_mark "no firmware: the session was not run" "$1" && ! grep -q '^firmware' "$work/printed" && marks 2 '"firmware": null}, {' --json "$1" &&
        marks 2 '"stages_same": null,' --json "$1" && unmarked firmware --csv "$1" && ! "$lab" --html "$page" "$1" >/dev/null &&
        has 1 '<p class="note">no firmware: the session was not run</p>' && has 0 Firmware
}
try "no firmware, an adapter that is refused" not_shown "$work/refused_102"
try "no firmware, a level text that is refused" not_shown "$work/low_101"
try "no firmware, levels the wrong way round" not_shown "$work/turned"
try "no firmware, a session under the name of the other form" not_shown "$work/named_writer"
try "an empty session shows what the opening left" no_mark " running 1.26.0.0 1.26.0.0" "$work/empty_text"

# 5: descriptions
"$kit" session samples/firmware/session.txt "$work/fw.session"
described_downloads() {
    diff <("$kit" session-text samples/firmware/session - | grep firmware) <(grep '^firmware' samples/firmware/session.txt)
}
try "labkit session-text, images and commits" described_downloads
# image_file NAME WORDS: the image that the words describe, as a file.
image_file() {
    echo "firmware-download validate $2" >"$work/image.txt" && "$kit" session "$work/image.txt" "$work/image.session" && tail -c +77 "$work/image.session" >"$1"
}
dir=$(download fw_file "firmware-download validate image=\"new image.bin\"\n$commit") && image_file "$dir/new image.bin" "major=7 minor=3 blocks=32 fill=77h"
try "an image from a file" marks 1 " running 1.26.0.0 7.3.0.0" "$dir"
from_elsewhere() {
    (cd / && "$lab" "$dir" | grep -q '^  running  1.26.0.0  7.3.0.0$') && "$kit" session "$dir/session.txt" "$work/made" &&
        diff <("$kit" session-text "$work/made" - | head -n 1) <(echo "firmware-download validate major=7 minor=3 blocks=32 fill=77h")
}
try "the file stands in the folder of the text" from_elsewhere
"$kit" session "$dir/session.txt" "$dir/session"
try "the binary beside it is what it describes" unmarked warning "$dir"
image_file "$dir/new image.bin" "major=8" && touch -d '-1 hour' "$dir/session"
try "an image that was changed" marks 1 "warning session.txt is run, and session beside it, which is not what it describes, is not" "$dir"
rm "$dir/session" && printf 'firmware-download validate image="new image.bin" damage=0\n' >"$dir/session.txt"
try "an image from a file, damaged" marks 1 " 1 firmware-download: validate 8.0.0.0, 1 block, damaged 4 denied, write attempted 1 failed" "$dir"
truncate -s 511 "$dir/new image.bin" && printf 'firmware-download validate image="new image.bin"\n' >"$dir/session.txt"
try "an image from a file, cut short" marks 1 " 1 firmware-download: validate 8.0.0.0, 511 bytes 4 denied, write attempted 3 invalid parameter" "$dir"
rm "$dir/new image.bin"
try "an image that is not there" lab_refuses "$dir/session.txt: line 1: image: $dir/new image.bin: No such file or directory (os error 2)" "$dir"
mkfifo "$dir/new image.bin"
try "a pipe for an image" lab_refuses "$dir/session.txt: line 1: image: $dir/new image.bin: not a file" "$dir"
rm "$dir/new image.bin" && truncate -s 1048577 "$dir/new image.bin"
try "an image that is too long" lab_refuses "$dir/session.txt: line 1: image: $dir/new image.bin: more than 1048576 bytes" "$dir"
truncate -s 32768 "$dir/new image.bin"
try "an image that no request holds" lab_refuses "$dir/session.txt: line 1: a request of 32840 bytes, over 32768" "$dir"
bad_download() {
    echo "firmware-download $2" >"$work/line.txt"
    refuses 1 "labkit: $work/line.txt: line 1: $1" "$kit" session "$work/line.txt" "$work/x"
}
try "a revision of 17 bits" bad_download "major: 65536 is over 65535" "validate major=65536"
for none in 0 00 0h; do
    try "an image of $none blocks" bad_download "blocks: an image has at least 1" "validate blocks=$none"
done
try "a fill of 9 bits" bad_download "fill: 256 is over 255" "validate fill=256"
try "a block that is not there" bad_download "damage: there is no whole block 2" "validate blocks=2 damage=2"
try "a flag without a name" bad_download "flags: 'reset' is no number and none of validate, soft-reset, hard-reset" "commit flags=reset"
try "a commit of an image" bad_download "blocks: goes with validate, and with neither data nor image" "commit blocks=2"
try "bytes and a file" bad_download "image: does not go with data" 'validate data=00 image="a"'
try "both at once" bad_download "firmware-download does not take 'commit'" "validate commit"
try "another word" bad_download "firmware-download does not take 'update'" "update"
try "the body of older texts" bad_download "firmware-download has no field 'body'" "body=00*44"
# Every byte of what stands before an image altered, and some of the image.
altered_downloads() {
    local at
    for at in $(seq 0 80) 576 583 584 587 588; do
        { head -c "$at" "$work/image.session" && printf '\007' && tail -c "+$((at + 2))" "$work/image.session"; } >"$work/part" &&
            "$kit" session-text "$work/part" "$work/text" && "$kit" session "$work/text" "$work/again" && cmp "$work/again" "$work/part" || { echo "byte $at" && return 1; }
    done
}
image_file "$work/image.bin" "major=2 minor=1 fill=5Ah"
try "altered images come back" altered_downloads

# 6: what docs/LAB.md says: its indented lines are the sample's report and texts, or make a session
documented_firmware() {
    cat "$here/lab/firmware.out" samples/firmware/{adapter,session}.txt >"$work/shown"
    ! sed -n '/^### Firmware/,/^#/s/^    //p' docs/LAB.md | grep . | grep -vxFf "$work/shown" && grep -qxF "    $(tail -n 1 "$here/lab/firmware.out")" docs/LAB.md
}
try "samples/firmware in docs/LAB.md" documented_firmware
documented_lines() {
    image_file "$work/new.bin" "major=2 blocks=2" && sed -n '/^## Firmware images/,/^## /s/^    \(firmware-download\)/\1/p' docs/LAB.md >"$work/lines.txt" &&
        [ "$(wc -l <"$work/lines.txt")" -ge 6 ] && "$kit" session "$work/lines.txt" "$work/x"
}
try "the images in docs/LAB.md" documented_lines
dir=$(download fw_sample "$(grep -v '^#' samples/firmware/session.txt)\n" "CSMI=Limited;" "CSMI=Full;")
try "samples/firmware under Limited and Full, as docs/LAB.md says" marks 0 "mark: 0 of 10 differ, 0 denied low; what they left is the same" "$dir"
try "its firmware in both runs" marks 0 " staged 3.0.0.0 3.0.0.0" "$dir"
mark_in_samples() {
    grep -qF "\`$(tail -n 1 "$here/lab/firmware.out" | sed 's/^mark: //')\`" samples/README.md
}
try "its mark in samples/README.md" mark_in_samples
try "no firmware in docs/LAB.md" grep -qF '`no firmware: the session was not run`' docs/LAB.md
