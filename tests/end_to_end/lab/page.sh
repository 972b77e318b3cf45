# Sourced by ../run. The page of --html: as text always, and in a browser where one is installed.

page=$work/page.html
make_page() {
    "$lab" --html "$page" samples/writes >"$work/printed" 2>"$work/errors"
    [ $? -eq 1 ] && diff /dev/null "$work/errors" && diff "$here/lab/writes.out" "$work/printed"
}
# has COUNT PATTERN: so many lines of the page have it.
has() {
    [ "$(grep -c -- "$2" "$page")" -eq "$1" ] || { echo "$(grep -c -- "$2" "$page") lines have $2" && return 1; }
}
self_contained() {
    ! grep -Eiq '<script|<link|<img|<iframe|src=|href=|@import|url\(|https?:' "$page" && has 1 '<meta charset="utf-8">' && has 1 '@media print'
}
both_runs() {
    has 1 '<th>no</th><th>request</th><th>low</th><th>high</th><th>differs</th>' &&
        has 1 '<td class="request">stp-passthru phy 1: command E8h</td><td class="answer">4 denied, write attempted</td><td class="answer">0 success; ATA 51h 04h error, aborted</td>'
}
marked() {
    has 9 '<tr class="differs"><td class="number">[0-9]*</td><td class="request">' && has 3 '<tr class="same"><td class="number">[0-9]*</td><td class="request">'
}
both_values() {
    has 1 '<tr class="detail">.*data, 512 bytes</td><td class="value">00\*512</td><td class="value">5A\*512</td>' &&
        has 1 'phy 0 programmed-maximum</td><td class="value">9 (3.0 Gb/s)</td><td class="value">8 (1.5 Gb/s)</td>'
}
counters_and_sectors() {
    has 1 '<h2>Counters</h2>' && has 4 '<td class="what">reset-problem</td><td class="value">0</td><td class="value">0</td>' &&
        has 1 '<td class="what">invalid-dword</td><td class="value">3</td><td class="value">0</td>' &&
        has 1 '<h2>Sectors that a run changed</h2>' &&
        has 1 'phy 0 LBA 3, 512 bytes</td><td class="value">00\*512</td><td class="value">00\*512</td><td class="value">5A\*512</td><td class="word">differs</td>'
}
escaped() {
    local dir="$work/<b>&\"'"
    mkdir "$dir" && cp samples/good/*.txt "$dir/" && "$lab" --html "$page" "$dir" >/dev/null &&
        has 3 '&lt;b&gt;&amp;&quot;&#39;' && ! grep -q '<b>' "$page"
}
without_a_mark() {
    "$lab" --html "$page" "$work/headers" >/dev/null
    [ $? -eq 2 ] && has 1 '<p class="mark">no mark: no request gets past its header' && has 6 'class="request"'
}
try "--html" make_page
try "the page needs nothing from elsewhere, and is made for print" self_contained
try "the page has the mark" has 1 '<p class="mark">mark: 9 of 12 differ, 6 denied low; 6 values and 1 sector left differ</p>'
try "the page has both runs" both_runs
try "the page marks what differs" marked
try "the page has both values" both_values
try "the page has counters and changed sectors" counters_and_sectors
cp "$page" "$work/writes.html"
try "the page escapes names" escaped
try "a page without a mark" without_a_mark
four_levels() {
    "$lab" --levels --html "$page" >/dev/null
    [ $? -eq 1 ] && has 5 '<th>None</th><th>Restricted</th><th>Limited</th><th>Full</th><th>differs</th>'
}
try "a page of four levels" four_levels

# browser: the first that is installed
browser() {
    local name
    for name in chromium chromium-browser google-chrome google-chrome-stable firefox firefox-esr; do
        command -v "$name" && return
    done
    return 1
}
# What the browser made of the page: its text has the mark, and it can be printed.
opened() {
    local home="$work/browser" url="file://$work/writes.html"
    mkdir -p "$home"
    case $1 in
    *firefox*)
        HOME=$home timeout 60 "$1" --headless --screenshot "$work/page.png" "$url" && [ "$(head -c 4 "$work/page.png" | tail -c 3)" = PNG ]
        ;;
    *)
        HOME=$home timeout 60 "$1" --headless --no-sandbox --disable-gpu --disable-dev-shm-usage --dump-dom "$url" >"$work/dom" &&
            grep -q 'mark: 9 of 12 differ, 6 denied low' "$work/dom" && [ "$(grep -c '<tr class="differs"><td class="number">[0-9]*</td><td class="request">' "$work/dom")" -eq 9 ] &&
            HOME=$home timeout 60 "$1" --headless --no-sandbox --disable-gpu --disable-dev-shm-usage --print-to-pdf="$work/page.pdf" "$url" && [ "$(head -c 4 "$work/page.pdf")" = %PDF ]
        ;;
    esac
}
if found=$(browser); then
    try "the page in $found" opened "$found"
else
    echo "there is no browser: the page is tested as text alone"
fi
