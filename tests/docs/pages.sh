# Tests of what is made of runs to look at, beside the built program, sourced by ./test: windows,
# changes and traces, pages in a browser, and the page of ./psci try.

# has_browser WHAT: whether there is a browser that can be driven
has_browser() {
    [ -n "$(type -P chromium || type -P chromium-browser || type -P google-chrome)" ] ||
        { skip "$1" chromium; false; }
}

# by_python FOLDER/NAME: tests/FOLDER/NAME over the program, with a folder of its own
by_python() {
    has_python "tests/$1" || return
    if timeout "$patience" "tests/$1" "$program" "$work/${1#*/}" > "$work/out" 2>&1; then pass; else
        fail "tests/$1"
        tail -n 20 "$work/out"
    fi
}

# windows of runs, what changed, JSON traces and value changes, each held to the rows of the run
views() { by_python docs/views; }

# pages of six runs in a browser, and the page that runs scripts as one types
pages() {
    has_browser pages || return
    by_python docs/pages
}

# sums, selections, names that are read aloud, paper and screens; what is planted in a copy of the pages is found
page_parts() {
    local path edit fresh=$work/parts
    has_browser "parts of pages" || return
    by_python docs/page-parts
    while read -r path edit; do
        rm -rf "$fresh"
        mkdir -p "$fresh/tests/docs"
        cp tests/docs/browser.py tests/docs/page-parts "$fresh/tests/docs"
        cp -r tools "$fresh"
        ln -s "$top"/{examples,docs,crates,crates.txt} "$fresh"
        sed -i "$edit" "$fresh/tools/page/$path"
        if cmp -s "tools/page/$path" "$fresh/tools/page/$path" ||
            timeout "$patience" "$fresh/tests/docs/page-parts" "$program" "$work/planted" < /dev/null > "$work/out" 2>&1; then
            fail "tests/docs/page-parts lets this through: $path, $edit"
        else pass; fi
    done << 'EOF'
sums.js s/last + 1)/last)/
sums.js s/=== 1 ? ""/=== 0 ? ""/
sums.js s/wake-up/entry/
controls.js s/event.shiftKey \&\& place.x/event.altKey \&\& place.x/
page.html s/ aria-label="zoom out"//
page.css s/height: 188mm/height: 388mm/
view.js s/"beforeprint"/"afterprint"/
page.css s/^#depths th { white-space: normal; }//
page.css s/^  #editor ~ #view .*//
EOF
}

# the words of ./psci that lead to these, by the built program
view_words() {
    has_python "words of views" || return
    ./psci show --changes --from 5 --to 6 --cores 3 < examples/late-acknowledgement.psci > "$work/out" 2> "$work/err"
    echo $? > "$work/got"
    cat > "$work/lines" << 'END'
      c  co  cl  sy
   n  3  3   1   0   asked -> answered
   5  g  0!  0!  0   core 3 CPU_OFF -> stops; Down #1: power-down of core and
                     cluster
   6     3   3       the power controller gets Down #1 of core 3 ->
                     acknowledgement 1: 2 of 2 parts applied
END
    expect "./psci show --changes" 0
    answers "./psci show --changes"
    ./psci draw --page < examples/late-acknowledgement.psci > "$work/out" 2> "$work/err"
    echo $? > "$work/got"
    expect "./psci draw --page" 0
    if head -n 1 "$work/out" | grep -q '^<!DOCTYPE html>'; then pass; else fail "./psci draw --page is no page"; fi
    printf '%s\nenter 0\nenter 1 2\n' "$board" | ./psci show --trace > "$work/out" 2> "$work/err"
    echo $? > "$work/got"
    # behind the program's line comes what it is in words
    sed -i '2,$d' "$work/err"
    expect "./psci show --trace at a faulty line" 3 "line 3: script fault 2"
    ./psci draw < examples/linux/hotplug.psci > "$work/out" 2> "$work/err"
    echo $? > "$work/got"
    : > "$work/lines"
    expect "./psci draw of a long run" 2 \
        "psci draw: a picture has at most 280 events (32767 pixels): use --page, or a window by --from and --to"
    answers "./psci draw of a long run"
}
