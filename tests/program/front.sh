# Tests of ./psci beside the program, sourced by ./test: which program it runs, what it says at once, how
# it tells faults, and its own commands.

# front_of FOLDER WORD..: runs a faulty script by the command ./psci of this folder
front_of() {
    local at=$1 faulty
    shift
    stored_files || return
    faulty=$stored/lines/event-of-no-form
    (cd "$at" && ./psci "$@") < "$faulty.psci" > "$work/out" 2> "$work/err"
    echo $? > "$work/got"
    cp "$faulty.out" "$work/lines"
}

# a folder with ./psci and what that reads, and the sources of each crate
fresh_copy() {
    local name
    for name in crates/*/{src,specs,proofs}; do
        [ -d "$name" ] || continue
        mkdir -p "$1/${name%/*}"
        cp -r "$name" "$1/${name%/*}"
    done
    mkdir -p "$1/docs/port"
    cp psci crates.txt HANDLES "$1"
    cp -r tools "$1"
    cp docs/port/FORMATS.md "$1/docs/port"
    git init -q "$1"
}

# ./psci hands words, streams and status on. Where no program is proved, or by --unproved, it does the
# same, and first says what that is worth; what it compiled for that, it does not compile again.
front() {
    local fault unproved compiled begun first fresh=$work/fresh
    stored_files || return
    fault="$(cat "$stored/lines/event-of-no-form.err")
psci: line 3, column 1: unknown word 'halt': expected one of call, enter, wake, reset, deliver, take
    halt 0
    ^"
    unproved="psci: this run is unproved; ./psci prove proves and builds the program"
    compiled="psci: compiling it takes about a minute; the program is kept for the next run"
    front_of . replay
    expect "./psci replay" 3 "$fault"
    answers "./psci replay"
    fresh_copy "$fresh"
    export XDG_CACHE_HOME=$work/cache
    processor_time
    begun=$spent
    front_of "$fresh" replay
    processor_time
    first=$((spent - begun))
    expect "./psci replay without a proved program" 3 "$unproved"$'\n'"$compiled"$'\n'"$fault"
    answers "./psci replay without a proved program"
    processor_time
    begun=$spent
    front_of . --unproved replay
    expect "./psci --unproved replay, the second time" 3 "$fault"
    answers "./psci --unproved replay, the second time"
    # a section that clang makes where it checks each access, and what it calls there
    if readelf -SsW "$XDG_CACHE_HOME"/gumdarts/unproved/psci_replay-* | grep asan_ > /dev/null; then
        fail "what was compiled unproved carries a sanitizer"
    else
        pass
    fi
    processor_time
    [ $((spent - begun)) -le $((first / 10)) ] || fail "the second unproved run took $((spent - begun)) hundredths of a \
second of a processor, and the first one, which compiles, $first"
    touch "$fresh/crates/psci_replay/src/main.rt"
    touch -d "25 hours ago" "$XDG_CACHE_HOME/gumdarts/unproved/said"
    front_of "$fresh" replay
    expect "./psci replay of the same sources, a day later" 3 "$unproved"$'\n'"$fault"
    echo "// Nothing." >> "$fresh/crates/psci_replay/src/main.rt"
    # other sources are compiled again, and on a terminal stands how far that is
    if tests/program/progress "$work/progress" fresh "$fresh/psci" > "$work/out" 2>&1; then pass; else
        fail "tests/program/progress, of a fresh clone: $(tail -n 1 "$work/out")"
    fi
    unset XDG_CACHE_HOME
    whole_unproved
    how_far
}

# what a fresh clone has, unproved, makes a large page in time, and says on a terminal how far it is; one that says
# nothing, says it too early, leaves what it says, or says it where there is no such terminal, is found by its part
how_far() {
    local part edit fresh=$work/far
    export XDG_CACHE_HOME=$work/cache
    if timeout "$patience" tests/program/progress "$work/progress" all ./psci --unproved > "$work/out" 2>&1; then pass; else
        fail "tests/program/progress: $(tail -n 1 "$work/out")"
    fi
    mkdir -p "$fresh"/tests/{program,hosts}
    cp -r tools psci crates.txt "$fresh"
    cp tests/program/progress tests/program/busy-script "$fresh/tests/program"
    ln -s "$top"/{crates,docs,examples} "$fresh"
    while read -r part edit; do
        sed "$edit" tools/front/programs.py > "$fresh/tools/front/programs.py"
        if cmp -s tools/front/programs.py "$fresh/tools/front/programs.py" ||
            (cd "$fresh" && timeout "$patience" tests/program/progress "$work/progress" "$part" ./psci --unproved) \
                < /dev/null > "$work/out" 2>&1; then
            fail "tests/program/progress lets this through: $edit"
        else pass; fi
    done << 'EOF'
pipe s/spent < 2 or/spent < 2000000 or/
pipe s/complain("\\r\\033\[K")/pass/
pipe s/spent < 2 or/spent < 0 or/
silent s/!= "dumb"$/!= "smart"/
seeds s/about {int(spent .*} s more" if/{part} more" if/
EOF
    unset XDG_CACHE_HOME
}

# ./psci try in a fresh clone with an empty HOME, in which nothing is proved, and of programs that fail; and a limit
# of memory that the program does not fit is found
served() {
    local room=$work/served
    has_python tests/program/served || return 0
    mkdir -p "$room/fresh"
    git ls-files -z | xargs -0 cp --parents -t "$room/fresh"
    if tests/program/served "$program" "$room" > "$work/out" 2>&1; then pass; else
        fail "./psci try in a fresh clone"
        tail -n 20 "$work/out"
    fi
    rm -f "$room/home/.cache/gumdarts/unproved/said"
    if tests/program/served "$program" "$room" planted > "$work/out" 2>&1; then
        fail "tests/program/served lets a limit of memory through that no program fits"
    elif grep -q "the program failed, not the script" "$work/out"; then pass; else
        fail "tests/program/served, planted: $(head -n 1 "$work/out")"
    fi
}

# the whole program is compiled once for every command, and answers as the proved one does
whole_unproved() {
    local words
    export XDG_CACHE_HOME=$work/cache
    ./psci --unproved storm --seed 1 --count 300 --keep "$work/kept" > "$work/out" 2> "$work/err"
    "$program" storm --seed 1 --count 300 > "$work/lines"
    answers "./psci --unproved storm"
    "$program" replay < "$work/kept" > "$work/lines"
    for words in "replay $work/kept" "--unproved replay $work/kept"; do
        # shellcheck disable=SC2086
        ./psci $words > "$work/out" 2> "$work/err"
        answers "./psci $words"
    done
    unset XDG_CACHE_HOME
    if grep -q compiling "$work/err"; then fail "the program of replay is compiled beside the whole one"; fi
}

# Without the whole program ./psci replays by the one that only replays, while no source of a crate
# below it is newer. Here another command stands for it, and one that fails for the kit's.
replaying() {
    local fresh=$work/replaying name at=crates/psci_replay/out
    has_python ./psci || return 0
    for name in crates/*/src; do
        mkdir -p "$fresh/$name"
        echo "//! Nothing." > "$fresh/$name/lib.rt"
    done
    cp psci crates.txt "$fresh"
    cp -r tools "$fresh"
    mkdir -p "$fresh/$at" "$fresh/kit/bin"
    printf '#!/bin/sh\nexit 1\n' > "$fresh/kit/bin/rt"
    echo "no kit" > "$fresh/kit/KIT-ID"
    chmod +x "$fresh/kit/bin/rt"
    printf '#!/bin/sh\necho replayed\n' > "$fresh/$at/psci_replay"
    chmod +x "$fresh/$at/psci_replay"
    touch -d "1 minute" "$fresh/crates/psci_storm/src/lib.rt"
    front_of "$fresh" replay
    echo replayed > "$work/lines"
    expect "./psci replay by the program that only replays" 0
    answers "./psci replay by the program that only replays"
    touch -d "1 minute" "$fresh/crates/psci_machine/src/lib.rt"
    PATH=$fresh/kit/bin:$PATH front_of "$fresh" replay
    if head -n 1 "$work/err" | grep -q "^psci: this run is unproved"; then pass; else
        fail "./psci replay by a program that is older than a source: $(head -n 1 "$work/err")"
    fi
}

# processor_time: leaves in $spent what all that this part ran has taken so far, in hundredths of a second. A part is a
# shell of its own, which `$$` does not name, and in `$(..)` this would be another one.
processor_time() {
    local -a fields
    read -ra fields < "/proc/$BASHPID/stat"
    spent=$((fields[15] + fields[16]))
}

# what is said of words, and each help; without a program, and at once: in a few times what Python takes to begin
wording() {
    local word begun took words=(--help "help show" stom "storm --sead 1" drwa "help draw" "prove --help" --version)
    by_python program/wording
    processor_time
    begun=$spent
    for word in "${words[@]}"; do
        # shellcheck disable=SC2086
        PATH=$(dirname "$(type -P python3)"):/usr/bin:/bin ./psci --unproved $word > "$work/out" 2> "$work/err"
        if [ -s "$work/out" ] || [ -s "$work/err" ]; then pass; else fail "./psci $word says nothing"; fi
        if grep -q "this run is unproved" "$work/err"; then fail "./psci $word runs the program"; fi
    done
    processor_time
    took=$((spent - begun)) begun=$spent
    for word in "${words[@]}"; do python3 -c "import argparse, subprocess, tempfile"; done
    processor_time
    [ $took -le $((5 * (spent - begun))) ] || fail "help and wrong words take $took hundredths of a second of a \
processor, and Python takes $((spent - begun)) to begin as often"
}

# faults in words, and scripts by name
by_names() {
    by_python program/faults-told
    by_python program/scripts-by-name
    named_scripts
}

# each word takes a script by name, of a file and by a pipe, and says the same of a fault in it
named_scripts() {
    local words script=$work/named
    has_python ./psci || return 0
    ./psci show --script examples/start-second-core.psci | sed 's/cpu_on/CPU_ON/' > "$script"
    grep -q "call 0 CPU_ON core3" "$script" || fail "show --script has no name"
    cp examples/start-second-core.out "$work/lines"
    for words in "replay $script" "replay -- $script" "replay - < $script" "replay < $script" "replay < <(cat $script)"; do
        eval "./psci $words" > "$work/out" 2> "$work/err"
        answers "./psci $words"
    done
    for words in show "show --json" "show --changes" draw "draw --page"; do
        # shellcheck disable=SC2086
        ./psci $words examples/start-second-core.psci | sed 's/"line": [^"]*"[^"]*"//' > "$work/lines"
        # shellcheck disable=SC2086
        ./psci $words < "$script" | sed 's/"line": [^"]*"[^"]*"//' > "$work/out"
        [ "${words#*page}" != "$words" ] || answers "./psci $words of a script by name"
        if [ -s "$work/out" ]; then pass; else fail "./psci $words of a script by name says nothing"; fi
    done
    echo "call 0 CPU_OFFF" >> "$script"
    for words in replay show draw "show --trace"; do
        # shellcheck disable=SC2086
        ./psci $words "$script" > "$work/out" 2> "$work/err"
        echo $? > "$work/got"
        expect "./psci $words of a faulty name" 3 "line $(wc -l < "$script"): script fault 2
psci: line $(wc -l < "$script"), column 8: unknown function 'CPU_OFFF': did you mean cpu_off?
    call 0 CPU_OFFF
           ^
psci: expected \`call CORE X0 [X1 [X2 [X3]]]\`"
    done
    ./psci show --machine examples/boards/rk3399.machine examples/boards/rk3399.calls > "$work/out" 2> "$work/err"
    echo $? > "$work/got"
    ./psci plain --machine examples/boards/rk3399.machine < examples/boards/rk3399.calls > "$work/plain"
    ./psci show "$work/plain" > "$work/lines"
    expect "./psci show --machine" 0
    answers "./psci show --machine"
}

# a file that is named, a link to ./psci, and streams that are closed or full
files_and_streams() {
    local words
    has_python ./psci || return 0
    cp examples/start-second-core.out "$work/lines"
    ./psci replay examples/start-second-core.psci > "$work/out" 2> "$work/err"
    echo $? > "$work/got"
    expect "./psci replay FILE" 0
    answers "./psci replay FILE"
    mkdir -p "$work/path"
    ln -sf "$top/psci" "$work/path/psci"
    (cd / && PATH=$work/path:$PATH psci replay "$top/examples/start-second-core.psci") > "$work/out" 2> "$work/err"
    answers "psci by a link in PATH"
    (sleep 1; cat examples/start-second-core.psci) | ./psci replay > "$work/out" 2> "$work/err"
    answers "./psci replay of a slow pipe"
    : > "$work/empty"
    ./psci show "$work/empty" > "$work/out" 2> "$work/err"
    echo $? > "$work/got"
    if [ "$(cat "$work/got")" = 3 ] && grep -q "line 1 must be the board" "$work/err"; then pass; else
        fail "./psci show of an empty script"
    fi
    ./psci replay "$work/none" > "$work/out" 2> "$work/err"
    echo $? > "$work/got"
    expect "./psci replay of no file" 4 "psci: cannot read $work/none: No such file or directory"
    for words in replay show draw plain; do
        ./psci "$words" "$work/path" > "$work/out" 2> "$work/err"
        echo $? > "$work/got"
        expect "./psci $words of a folder" 4 "psci: cannot read $work/path: Is a directory"
        ./psci "$words" < "$work/path" > "$work/out" 2> "$work/err"
        echo $? > "$work/got"
        expect "./psci $words < a folder" 4 "psci: standard input is a folder, and no script"
    done
    ./psci storm --seed 1 --count 1 --keep "$work/none/kept" > "$work/out" 2> "$work/err"
    echo $? > "$work/got"
    expect "./psci storm --keep in no folder" 4 \
        "write fault"$'\n'"psci: --keep $work/none/kept was not written completely: No such file or directory"
    { ./psci storm --seed 1 --count 1 --keep "$work/none/kept" 2> "$work/err"; echo $? > "$work/got"; } | cat > "$work/out"
    expect "./psci storm --keep in no folder, into a pipe" 4 \
        "write fault"$'\n'"psci: --keep $work/none/kept was not written completely: No such file or directory"
    for words in "draw examples/late-acknowledgement.psci" "draw --page examples/late-acknowledgement.psci" \
        "storm --seeds 1..3 --count 5" "show --changes examples/late-acknowledgement.psci" --help "help draw" \
        "replay examples/late-acknowledgement.psci" "plain examples/late-acknowledgement.psci" \
        "replay --machine examples/boards/rk3399.machine examples/boards/rk3399.calls"; do
        # shellcheck disable=SC2086
        ./psci $words 2> "$work/err" >&-
        closed_or_full "./psci $words, closed" $? "standard output" "Bad file descriptor"
        has_full "./psci $words, full" || continue
        # shellcheck disable=SC2086
        ./psci $words 2> "$work/err" > /dev/full
        closed_or_full "./psci $words, full" $? /dev/full "No space left on device"
    done
    unread
    interrupted
    nothing_there
    lacking
    origins
}

# what is not here is said, and no line of Python
lacking() {
    local room=$work/lacking
    mkdir -p "$room"
    PATH=$room ./psci help > "$work/out" 2> "$work/err"
    echo $? > "$work/got"
    expect "./psci without python3" 1 "psci: ./psci needs python3 (3.9 or later), which is not here"
    ln -s "$(python3 -c 'import sys; print(sys.executable)')" "$room/python3"
    PATH=$room ./psci --unproved replay examples/lost-message.psci > "$work/out" 2> "$work/err"
    echo $? > "$work/got"
    expect "./psci without rt" 1 "psci: no proved program is here, and building one needs the Rattle kit's command rt \
on the path. README says what works without the kit"
    XDG_CACHE_HOME=/dev/null/cache ./psci --unproved replay examples/lost-message.psci > "$work/out" 2> "$work/err"
    echo $? > "$work/got"
    sed -i 1,2d "$work/err"
    expect "./psci without a cache" 1 "psci: cannot keep the compiled program in /dev/null/cache/gumdarts/unproved: Not a directory; \
set XDG_CACHE_HOME to another folder"
    PATH=$room XDG_CACHE_HOME=/dev/null/cache "$room/python3" "$top/psci" plain examples/lost-message.psci > "$work/out"
    cp examples/lost-message.psci "$work/lines"
    answers "./psci plain, which needs neither git nor a cache"
    mkdir -p "$work/full"
    (unshare -rm mount -t tmpfs none "$work/full") 2> /dev/null ||
        { skip "./psci with a full cache" "unshare that may mount"; return; }
    unshare -rm sh -c 'mount -t tmpfs -o size=1m none "$1" && XDG_CACHE_HOME=$1 ./psci --unproved replay \
        examples/lost-message.psci' sh "$work/full" > "$work/out" 2> "$work/err"
    echo $? > "$work/got"
    sed -i 1,2d "$work/err"
    expect "./psci with a full cache" 1 "psci: cannot keep the compiled program in $work/full/gumdarts/unproved: No space left on \
device; set XDG_CACHE_HOME to another folder"
}

# Where things come from, as README says it: the standards by title, the kit, how a fault is reported, and the least
# Python, with which all tools can be read, and an older one than which is refused; CHANGELOG has the version.
origins() {
    local least text
    least=$(sed -n 's/.*`python3` (\([0-9.]*\) or later).*/\1/p' README.md)
    mkdir -p "$work/older"
    for text in "3, ${least#3.}, 0" "3, $((${least#3.} - 1)), 18"; do
        echo "import sys; sys.version_info, sys.version = ($text), '${text//, /.} (a test)'" > "$work/older/sitecustomize.py"
        PYTHONPATH=$work/older ./psci --version > "$work/out" 2> "$work/err"
        echo $? >> "$work/older/got"
    done
    tail -n 1 "$work/older/got" > "$work/got"
    expect "./psci by an older python3" 1 "psci: this is python ${text//, /.}, and ./psci needs $least or later"
    if [ "$(head -n 1 "$work/older/got")" = 0 ]; then pass; else fail "./psci by python $least"; fi
    if python3 - "$least" > "$work/out" 2>&1 << 'END'; then pass; else
import ast, glob, sys
for path in ["psci", *glob.glob("tools/**/*", recursive=True)]:
    try:
        with open(path, encoding="utf-8") as file:
            text = file.read()
    except (IsADirectoryError, UnicodeDecodeError):
        continue
    if path.endswith(".py") or "python3" in text[:200]:
        ast.parse(text, path, feature_version=tuple(map(int, sys.argv[1].split("."))))
END
        fail "tools that python $least cannot read: $(tail -n 1 "$work/out")"
    fi
    for text in '*Power State Coordination Interface* (DEN0022D)' '*SMC Calling Convention* (DEN0028)' 'the Rattle kit' \
        '`git` (2.13 or later)' 'A report of a fault has `./psci --version`' 'Without the kit'; do
        if grep -qF "$text" README.md; then pass; else fail "README does not say $text"; fi
    done
    if grep -q "^## $(./psci --version | cut -d ' ' -f 2)\(,\|$\)" CHANGELOG.md; then pass; else fail "the version in CHANGELOG"; fi
}

# closed_or_full NAME STATUS FILE REASON: a write fault was told, with the file and why
closed_or_full() {
    if [ "$2" = 4 ] && [ "$(cat "$work/err")" = "write fault"$'\n'"psci: $3 was not written completely: $4" ]; then pass; else
        fail "$1 (status $2): $(head -n 2 "$work/err")"
    fi
}

# long runs of which a reader takes a line and goes: that is no fault
unread() {
    local words
    ./psci storm --seed 1 --count 10000 --keep "$work/long" > "$work/out"
    for words in replay show "show --changes" "show --trace" plain; do
        # shellcheck disable=SC2086
        { ./psci $words "$work/long" 2> "$work/err"; echo $? > "$work/got"; } | head -n 1 > "$work/out"
        if [ "$(cat "$work/got")" = 141 ] && [ ! -s "$work/err" ] && [ -s "$work/out" ]; then pass; else
            fail "./psci $words, of which a line is read (status $(cat "$work/got")): $(head -n 2 "$work/err")"
        fi
    done
}

# Ctrl-C ends each command as Python begins, at any moment, and where it waits for its script or works, without a word;
# tools that tell where they were are found by their part
interrupted() {
    local part path edit fresh=$work/pressed
    if tests/program/interrupts "$work/interrupts" all ./psci > "$work/out" 2>&1; then pass; else
        fail "tests/program/interrupts: $(tail -n 1 "$work/out")"
    fi
    while read -r part path edit; do
        rm -rf "$fresh"
        mkdir -p "$fresh"/tests/{program,hosts}
        cp -r tools psci crates.txt "$fresh"
        cp tests/program/interrupts "$fresh/tests/program"
        ln -s "$top/tests/hosts/records" "$fresh/tests/hosts"
        ln -s "$top"/{crates,docs,examples,model,hosts,include} "$fresh"
        sed -i "$edit" "$fresh/$path"
        if cmp -s "$path" "$fresh/$path" ||
            (cd "$fresh" && tests/program/interrupts "$work/interrupts" "$part" ./psci) < /dev/null > "$work/out" 2>&1; then
            fail "tests/program/interrupts lets this through: $path, $edit"
        else pass; fi
    done << 'EOF'
begins psci /^if env --block-signal/d
begins tools/front/commands.py s/preexec_fn=interrupts.hold/preexec_fn=None/
begins tools/front/commands.py /^        interrupts.hold()$/d
works tools/front/interrupts.py s/sys.excepthook, sys.unraisablehook = uncaught, ignored/pass/
waits tools/draw s/signal.signal(signal.SIGINT, signal.SIG_DFL)/pass/
EOF
}

# what looks at a run without an event says so, in one line, and ends with 7; what answers or translates one does that
nothing_there() {
    local words by
    head -n 1 examples/lost-message.psci > "$work/board"
    for words in "show --changes" "show --trace" "show --vcd" "show --script" draw "draw --page" "show --json --from 99" \
        "show --from 99" "draw --from 99" "show --trace --from 99"; do
        # shellcheck disable=SC2086
        ./psci $words "$work/board" > "$work/out" 2> "$work/err"
        echo $? > "$work/got"
        expect "./psci $words of a board" 7 "psci ${words%% *}: there is no event in this part of the run"
    done
    printf '\n# nothing\n' | cat "$work/board" - > "$work/nothing"
    for words in show "show --legend" "show --json"; do
        for by in "$work/board" "$work/nothing" "< $work/nothing" "< <(cat $work/nothing)"; do
            eval "./psci $words $by" > "$work/out" 2> "$work/err"
            echo $? > "$work/got"
            expect "./psci $words of nothing, $by" 7 "psci show: there is no event in this part of the run"
        done
    done
    for words in "enter 0" $'# nothing\nenter 0'; do
        (cat "$work/board"; sleep 0.1; echo "$words") | ./psci show > "$work/out" 2> "$work/err"
        echo $? > "$work/got"
        expect "./psci show of one event" 0
    done
    : > "$work/lines"
    ./psci replay "$work/nothing" > "$work/out" 2> "$work/err"
    echo $? > "$work/got"
    expect "./psci replay of nothing" 0
    answers "./psci replay of nothing"
    ./psci plain "$work/nothing" > "$work/out" 2> "$work/err"
    echo $? > "$work/got"
    cp "$work/nothing" "$work/lines"
    expect "./psci plain of nothing" 0
    answers "./psci plain of nothing"
    ./psci compare "$work/board" > "$work/out" 2> "$work/err"
    if [ $? = 7 ] && grep -q "there is no event in it" "$work/out"; then pass; else fail "./psci compare of a board"; fi
}

# boards whose line in a script would be too long: the longest that is kept is replayed
long_boards() {
    local range=0x0000000000000000-0x0000000000001000 limits board
    has_python ./psci || return 0
    limits="exec $range $range $range $range boot 0x0000000000000000 starts 4294967295 lives 65535"
    board="(16 16 16 16 16 16 1 1 1 1 1 1 1 1 1 1) $limits"
    ./psci storm --seed 1 --count 5 --board "$board" --keep "$work/kept" > "$work/out" 2> "$work/err"
    ./psci replay "$work/kept" > "$work/out" 2> "$work/err"
    echo $? > "$work/got"
    expect "a kept storm on a board of ${#board} bytes" 0
    ./psci storm --seed 1 --count 5 --board "${board/ 1 / 16 }" --keep "$work/kept" > "$work/out" 2> "$work/err"
    echo $? > "$work/got"
    sed -i '2,$d' "$work/err"
    expect "a kept storm on a board of $((${#board} + 1)) bytes" 2 \
        "psci: word 8: --keep writes a script, whose board has at most 250 bytes: this has $((${#board} + 1))"
    [ "${#board}" = 250 ] || fail "the longest board of the test has ${#board} bytes"
}

has_parallel() { command -v parallel > /dev/null || { skip "$1" parallel; false; }; }

# storms of several seeds: each has its line, in order, also where two jobs make them side by side;
# known lines, by which no part of a seed or of the count is cut
many_storms() {
    local seed
    : > "$work/lines"
    for seed in 8 9 10 11; do
        run storm --seed "$seed" --count 300
        echo "seed $seed $(cat "$work/out")" >> "$work/lines"
    done
    ./psci storm --seeds 8..11 --count 300 > "$work/out" 2> "$work/err"
    echo $? > "$work/got"
    expect "storms of four seeds" 0
    answers "storms of four seeds"
    seq 8 11 | xargs -P 2 -I{} sh -c 'echo seed {} "$("$0" storm --seed {} --count 300)"' "$program" |
        sort -n -k 2 > "$work/out" 2> "$work/err"
    answers "storms by two jobs"
    if has_parallel "storms by two processors"; then
        seq 8 11 | parallel --will-cite -k -j 2 \
            echo seed {} '$('"$program"' storm --seed {} --count 300)' > "$work/out" 2> "$work/err"
        answers "storms by two processors"
    fi
    for words in "--seeds 1" "--seeds 2..1" "--seeds 1..x" "--seeds" "--seeds 1..2 --keep f" "--seeds 1..2 --seed 1"; do
        # shellcheck disable=SC2086
        ./psci storm --count 1 $words > "$work/out" 2> "$work/err"
        if [ $? = 2 ] && [ ! -s "$work/out" ] && [ -s "$work/err" ]; then pass; else fail "./psci storm $words"; fi
    done
    # known lines: the second model has answered the kept scripts with as many events and messages
    cat > "$work/known" << 'END'
1 storm events 10008 sent 497 quiet 2
2 storm events 10002 sent 768 quiet 1
36 storm events 10000 sent 437 halting
4294967297 storm events 10002 sent 787 quiet 1
18446744073709551615 storm events 10003 sent 583 quiet 1
END
    while read -r seed words; do
        run storm --seed "$seed" --count 10000
        echo "$words" > "$work/lines"
        answers "the storm of seed $seed"
    done < "$work/known"
}

