# Tests of the built program as a whole, sourced by ./test: little memory, words and streams.
# What is wanted is written here, by docs/port/FORMATS.md.

board="board 1 exec 0x0-0x4 boot 0x0 starts 1 lives 1"

# expect NAME STATUS [ERROR]: compares the status in $work/got, and the text of $work/err, which is
# nothing, or ERROR and a line feed
expect() {
    if [ $# = 2 ]; then : > "$work/wanted"; else printf '%s\n' "$3" > "$work/wanted"; fi
    if [ "$(cat "$work/got")" = "$2" ] && cmp -s "$work/wanted" "$work/err"; then pass; else
        fail "$1 (status $(cat "$work/got"), $(head -n 1 "$work/err"))"
    fi
}

# answers NAME: compares the standard output with $work/lines
answers() {
    if cmp -s "$work/lines" "$work/out"; then pass; else
        fail "$1: its output"
        diff "$work/lines" "$work/out" | head -n 5
    fi
}

# stored_files: each stored script as files in $stored, by its name in tests/program/stored.py: NAME.psci, NAME.out, and
# NAME.err and NAME.status where there is a fault
stored_files() {
    stored=$work/stored
    [ ! -d "$stored" ] || return 0
    has_python "what stored scripts say" || return
    tests/program/stored.py unpack "$stored" 2> "$work/err" || { fail "$(cat "$work/err")"; return 1; }
    ln -s "$top/examples" "$stored/examples"
}

# stored_texts LIST: the texts of tests/program/LIST.txt as files in $work/LIST, which are called as those of scripts, but
# for the words, NAME.words
stored_texts() {
    has_python "the texts of $1" || return
    tests/program/stored.py unpack "$work/$1" "tests/program/$1.txt" 2> "$work/err" ||
        { fail "$(cat "$work/err")"; return 1; }
}

# headers: what the C library's headers are called, each of include/ but the one that goes with hosts/beside/beside.c
headers() { (cd "$top/include" && printf '%s\n' *.h | grep -vx psci_beside.h); }

# run WORD..: the program with these words; its output, error text and
# status are kept
run() {
    timeout "$patience" "$program" "$@" > "$work/out" 2> "$work/err"
    echo $? > "$work/got"
}

# the smallest script with an answer, and that
one_entry() {
    printf '%s\nenter 0\n' "$board" > "$work/script"
    echo "1 enter 0x0 0x0" > "$work/lines"
}

# in_room KIB COMMAND..: runs it with so much address space at most. The limit is not this shell's, which may need more.
in_room() { prlimit --as=$(($1 * 1024)) "${@:2}"; }

# in_memory KIB WORD..: a run with so much address space, and how it ended; 1 if it ended wrongly.
# Its status is in $work/got.
in_memory() {
    local size=$1 status=0
    shift
    in_room "$size" "$program" "$@" < "$work/script" > "$work/out" 2> "$work/err" || status=$?
    echo "$status" > "$work/got"
    case $status in
        0) cmp -s "$work/lines" "$work/out" && [ ! -s "$work/err" ] && echo enough ;;
        5) [ ! -s "$work/out" ] && echo "out of memory" | cmp -s - "$work/err" && echo refused ;;
        # the system can't load the program
        126 | 127) echo unloaded ;;
        # all else is wrong, and so is an end by a signal
        *) return 1 ;;
    esac
}

# With ever less memory the program answers as ever, then says that it is out of memory, and at last
# it is not loaded.
little_memory() {
    local size ended refused=0
    one_entry
    for size in $(seq 16384 -16 512); do
        if ! ended=$(in_memory "$size" replay); then
            fail "replay in $size KiB of memory (status $(cat "$work/got")): $(cat "$work/err")"
            return
        fi
        [ "$ended" != refused ] || refused=$((refused + 1))
        [ "$ended" != unloaded ] || break
    done
    if [ "$refused" -gt 0 ]; then pass; else fail "no amount of memory was too little for replay"; fi
}

# the stack that docs/maintain/COSTS.md names is enough
little_stack() {
    local words run
    one_entry
    for words in replay --help; do
        # the kernel begins the stack up to 8 KiB lower, each time by another amount
        for run in {1..40}; do
            (ulimit -s 48 && exec env -i "$program" "$words" < "$work/script" > "$work/out" 2> "$work/err")
            echo $? > "$work/got"
            [ "$(cat "$work/got")" = 0 ] || break
        done
        expect "$words on a stack of 48 KiB, run $run" 0
    done
}

# standard streams that are closed, full, or no file, and a reader that has gone
streams() {
    one_entry
    run replay <&-
    expect "standard input closed" 4 "read fault"
    run replay < .
    expect "a folder as standard input" 4 "read fault"
    "$program" replay < "$work/script" 2> "$work/err" >&-
    echo $? > "$work/got"
    expect "standard output closed" 4 "write fault"
    if has_full "streams into a full device"; then
        "$program" replay < "$work/script" 2> "$work/err" > /dev/full
        echo $? > "$work/got"
        expect "answers into a full device" 4 "write fault"
        "$program" --help 2> "$work/err" > /dev/full
        echo $? > "$work/got"
        expect "help into a full device" 4 "write fault"
        : > "$work/err"
        "$program" replay < /dev/null 2> /dev/full
        echo $? > "$work/got"
        expect "a fault's text into a full device" 3
        "$program" 2> /dev/full
        echo $? > "$work/got"
        expect "the parser's text into a full device" 2
    fi
    awk -v board="$board" 'BEGIN { print board; for (i = 0; i < 900000; i++) print "call 0 0x84000000" }' \
        > "$work/script"
    { "$program" replay < "$work/script" 2> "$work/err"; echo $? > "$work/got"; } | true
    expect "a reader that has gone" 4 "write fault"
}

# a pipe in which the bytes come one by one
slow_pipe() {
    local text at
    one_entry
    text=$(cat "$work/script")
    for ((at = 0; at < ${#text}; at++)); do
        printf '%s' "${text:at:1}"
        sleep 0.002
    done | { timeout "$patience" "$program" replay > "$work/out" 2> "$work/err"; echo $? > "$work/got"; }
    expect "a pipe byte by byte" 0
    answers "a pipe byte by byte"
}

# the program answers a line before it asks for the next
by_hand() {
    local answer= input output pid
    coproc talk { "$program" replay 2> /dev/null; }
    pid=$talk_PID output=${talk[0]} input=${talk[1]}
    printf '%s\n' "$board" "enter 0" >&"$input"
    read -r -t "$patience" answer <&"$output"
    if [ "$answer" = "1 enter 0x0 0x0" ]; then pass; else fail "a line by hand"; fi
    exec {input}>&-
    wait "$pid" 2> /dev/null || true
}

# words that are no command, words that are not UTF-8, and words that ask for help
command_lines() {
    local words
    for words in "" "storm" "threads" "replay extra" "replay --seed 1" "replay --version" "--no-such"; do
        # shellcheck disable=SC2086
        run $words < /dev/null
        if [ "$(cat "$work/got")" = 2 ] && [ ! -s "$work/out" ] && [ -s "$work/err" ]; then pass; else
            fail "command line '$words'"
        fi
    done
    for words in $'\xff' $'repl\xe4y' $'\xc0\x80'; do
        run "$words" < /dev/null
        expect "a word that is not UTF-8" 2 "error: the command line is not UTF-8 text"
        run replay "$words" < /dev/null
        expect "a second word that is not UTF-8" 2 "error: the command line is not UTF-8 text"
    done
    for words in $'re\x1b[2Jplay' $'re\xc2\x9b2Jplay' $'re\x7fplay'; do
        run "$words" < /dev/null
        if [ "$(cat "$work/got")" = 2 ] && grep -q 're?.*play' "$work/err" &&
            ! LC_ALL=C grep -q '[^ -~]' "$work/err"; then pass; else
            fail "a word that a terminal would obey"
        fi
    done
    for words in "--help" "replay --help" "help replay"; do
        # shellcheck disable=SC2086
        run $words
        if [ "$(cat "$work/got")" = 0 ] && [ -s "$work/out" ] && [ ! -s "$work/err" ]; then pass; else
            fail "help '$words'"
        fi
    done
}

# the version, of the program alone
version() {
    echo "psci_cli 0.1.0" > "$work/lines"
    run --version
    expect "--version" 0
    answers "--version"
    "$program" --version 2> "$work/err" >&-
    echo $? > "$work/got"
    expect "--version with standard output closed" 4 "write fault"
}

# the program that only replays answers each example as the whole one does, whatever its words
replay_program() {
    local name whole=$program
    stored_files || return
    program=$top/crates/psci_replay/out/psci_replay
    [ -x "$program" ] || { skip "the program that only replays" "$program"; program=$whole; return; }
    for name in $(cd "$stored" && printf '%s\n' {examples,lines}/*.psci); do script "${name%.psci}"; done
    one_entry
    run < "$work/script"
    expect "the program that only replays, without a word" 0
    answers "the program that only replays, without a word"
    program=$whole
}

# the line of a storm, which the seed alone decides; its words, streams and memory
storms() {
    local seed tree
    echo "storm events 1 sent 0 quiet 0" > "$work/lines"
    run storm --seed 1 --count 0
    expect "a storm without events" 0
    answers "a storm without events"
    run storm --seed 18446744073709551615 --count 10000
    expect "a storm of the last seed" 0
    cp "$work/out" "$work/lines"
    run storm --count 10000 --seed 18446744073709551615
    answers "the same storm again"
    run storm --seed 7 --count 500
    cp "$work/out" "$work/lines"
    run storm --seed 7 --count 500 \
        --board "(2 2) exec 0x40000000-0x40100000 boot 0x40000000 starts 1000 lives 3"
    answers "a storm on the board that is taken where none is given"
    for seed in 1 2 3 4 5; do
        run storm --board "((1 2) (2 1)) exec 0x0-0x1000 boot 0x0 starts 1000 lives 3" \
            --seed "$seed" --count 10000
        expect "a storm on a board of height 3" 0
        grep -qxE 'storm events [0-9]+ sent [0-9]+ (quiet [0-4]|halting)' "$work/out" || \
            fail "the line of a storm: $(head -n 1 "$work/out")"
    done
    for tree in "(16 16 16 16 16 16 16 16 16 16 16 16 16 16 16 16)" \
        "((16 16 16 16) (16 16 16 16) (16 16 16 16) (16 16 16 16))"; do
        for seed in 1 2; do
            run storm --board "$tree exec 0x0-0x1000 boot 0x0 starts 1000 lives 3" \
                --seed "$seed" --count 10000
            expect "a storm on a board of 256 cores" 0
            grep -qxE 'storm events [0-9]+ sent [0-9]+ (quiet [0-4]|halting)' "$work/out" || \
                fail "the line of a storm: $(head -n 1 "$work/out")"
        done
    done
    run storm --board "(2 2)" --seed 1 --count 1
    expect "a storm on a board outside the grammar" 2 "board fault 1"
    run storm --board "1 exec 0x0-0x4 boot 0x4 starts 1 lives 1" --seed 1 --count 1
    expect "a storm on a board that cannot start" 2 "board fault 6"
    if has_full "a storm into a full device"; then
        "$program" storm --seed 1 --count 0 2> "$work/err" > /dev/full
        echo $? > "$work/got"
        expect "a storm into a full device" 4 "write fault"
    fi
    for words in "" "--seed 1" "--count 1" "--seed 1 --count 10001" "--seed -1 --count 1" \
        "--seed 18446744073709551616 --count 1" "--seed 1 --count x"; do
        # shellcheck disable=SC2086
        run storm $words
        if [ "$(cat "$work/got")" = 2 ] && [ ! -s "$work/out" ] && [ -s "$work/err" ]; then pass; else
            fail "storm $words (status $(cat "$work/got"))"
        fi
    done
    run storm --help
    expect "help of storm" 0
}

# a storm that is kept in a file: its line is the same; the file is a script, which has a replay with
# as many events and messages as the line says, the first of them the drawn ones
kept_storms() {
    local tree seed wanted
    for tree in "1" "(2 2)" "((1 2) (2 1))"; do
        for seed in 1 12 18446744073709551615; do
            set -- --board "$tree exec 0x0-0x1000 boot 0x0 starts 1000 lives 3" --seed "$seed" --count 500
            run storm "$@"
            cp "$work/out" "$work/lines"
            run storm "$@" --keep "$work/kept"
            expect "a storm that is kept" 0
            answers "a storm that is kept"
            wanted=$(awk '{ print $3, $5 }' "$work/lines")
            run replay < "$work/kept"
            expect "a kept storm, replayed" 0
            if [ "$(head -n 1 "$work/kept")" = "board $2" ] && [ "${wanted% *}" -ge 500 ] &&
                [ "$(tail -n +2 "$work/kept" | wc -l) $(grep -cE ' #[0-9]+ (start|down|off|reset) ' \
                    "$work/out")" = "$wanted" ]; then pass; else
                fail "a kept storm on $tree, seed $seed: not its $wanted events and messages"
            fi
        done
    done
    run storm --seed 1 --count 1 --keep "$work/none/kept"
    expect "a storm kept in a folder that there is not" 4 "write fault"
    if has_full "a storm kept on a full device"; then
        run storm --seed 1 --count 1 --keep /dev/full
        expect "a storm kept on a full device" 4 "write fault"
    fi
    run storm --seed 1 --count 1 --keep
    if [ "$(cat "$work/got")" = 2 ] && [ ! -s "$work/out" ] && [ -s "$work/err" ]; then pass; else
        fail "storm --keep without a file (status $(cat "$work/got"))"
    fi
}

# adds_up NAME: one line of threads, whose last number is the sum of the others
adds_up() {
    if [ "$(wc -l < "$work/out")" = 1 ] &&
        grep -qxE 'threads firmware [0-9]+ controller [0-9]+ audited [0-9]+' "$work/out" &&
        awk '{ exit $3 + $5 != $7 }' "$work/out"; then pass; else
        fail "$1: $(head -n 1 "$work/out")"
    fi
}

# threads: their line, whose numbers the schedule decides, and which adds up; their faults, in order
core_threads() {
    local seed words limits="exec 0x0-0x1000 boot 0x0 starts 1000 lives 3"
    for seed in 1 2 3 18446744073709551615; do
        run threads --seed "$seed" --count 50
        expect "threads of seed $seed" 0
        adds_up "threads of seed $seed"
    done
    for words in "1" "((1 2) (2 1))" "(16 16 16 16)"; do
        run threads --board "$words $limits" --seed 1 --count 5
        expect "threads on the board $words" 0
        adds_up "threads on the board $words"
    done
    run threads --seed 1 --count 0
    expect "threads without a call" 0
    adds_up "threads without a call"
    run threads --board "(2 2)" --seed 1 --count 1
    expect "threads on a board outside the grammar" 2 "board fault 1"
    run threads --board "(16 16 16 16 1) exec 0x0-0x1000 boot 0x2 starts 1 lives 1" --seed 1 --count 1
    expect "threads for 65 cores that cannot start" 2 "board fault 6"
    run threads --board "(16 16 16 16 1) $limits" --seed 1 --count 1
    expect "threads for 65 cores" 2 "too many cores"
    if has_full "threads into a full device"; then
        "$program" threads --board "(16 16 16 16 1) $limits" --seed 1 --count 1 2> "$work/err" > /dev/full
        echo $? > "$work/got"
        expect "threads for 65 cores into a full device" 2 "too many cores"
        "$program" threads --seed 1 --count 5 2> "$work/err" > /dev/full
        echo $? > "$work/got"
        expect "threads into a full device" 4 "write fault"
    fi
    for words in "" "--seed 1" "--count 1" "--seed 1 --count 10001" "--board 65 --seed x --count 1"; do
        # shellcheck disable=SC2086
        run threads $words
        if [ "$(cat "$work/got")" = 2 ] && [ ! -s "$work/out" ] && grep -q '^error: ' "$work/err"; then pass; else
            fail "threads $words (status $(cat "$work/got"))"
        fi
    done
}

# threads with counts: their line comes first, and then a line for each core, in order, which has made
# all its calls and looked at others
thread_counts() {
    local cores tree
    for tree in "1" "(2 2)" "(16 16 16 16)"; do
        run threads --board "$tree exec 0x0-0x1000 boot 0x0 starts 1000 lives 3" --seed 1 --count 40 --counts
        expect "threads on $tree with counts" 0
        cores=$(tr -c '0-9' '\n' <<< "$tree" | awk '{ sum += $1 } END { print sum }')
        if awk -v cores="$cores" 'NR == 1 { firmware = $3; next }
            $0 !~ /^core [0-9]+ calls 40 entries [0-9]+ polls [0-9]+$/ { bad = 1 }
            $2 != NR - 2 || $6 <= 40 || $8 < 37 { bad = 1 }
            { entries += $6 }
            END { exit bad || NR != cores + 1 || entries > firmware }' "$work/out"; then pass; else
            fail "threads on $tree: their counts"
            head -n 5 "$work/out"
        fi
    done
}

# a run of threads as long as one may be, on as many cores as there may be: it comes to its end, and each
# core makes all its calls
long_threads() {
    run threads --board "(16 16 16 16) exec 0x0-0x1000 boot 0x0 starts 100000 lives 3" --seed 1 \
        --count 10000 --counts
    expect "threads of 64 cores with 10,000 calls each" 0
    if awk 'NR > 1 && $4 != 10000 { bad = 1 } END { exit bad || NR != 65 }' "$work/out"; then pass; else
        fail "threads of 64 cores with 10,000 calls each: their counts"
        head -n 5 "$work/out"
    fi
}

# a run of threads that is kept in a file: a script with an event for each entry, so many of each kind as
# its line and counts say, whose replay answers each event as a run does that was audited
kept_threads() {
    local seed
    for seed in 1 2 3 4; do
        run threads --seed "$seed" --count 100 --counts --keep "$work/kept"
        expect "threads that are kept" 0
        cp "$work/out" "$work/told"
        run replay < "$work/kept"
        expect "kept threads, replayed" 0
        # what a firmware is asked it answers, and what a core enters by, it enters
        if awk '
            FNR == NR { if (FNR == 1) { firmware = $3; controller = $5 } else { calls[$2] = $4; made[$2] = $6 }; next }
            $1 == "board" { next }
            { $1 ~ /^(call|enter|take)$/ ? asked++ : controlled++ }
            $1 == "call" { calls[$2]-- } $1 ~ /^(call|enter)$/ { made[$2]-- }
            END { for (core in calls) if (calls[core] || made[core]) bad = 1
                exit bad || asked != firmware || controlled != controller }' "$work/told" "$work/kept" &&
            paste -d ' ' <(awk '{ print $1 }' "$work/kept" | tail -n +2) "$work/out" | awk '
                $1 == "call" && $3 !~ /^(return|stop)$/ { bad = 1 }
                $1 == "enter" && $3 !~ /^(enter|resume|stop)$/ { bad = 1 }
                $1 == "take" && $3 !~ /^(used|old)$/ { bad = 1 }
                $1 ~ /^(wake|reset)$/ && $3 !~ /^(started|ignored)$/ { bad = 1 }
                $1 == "deliver" && $3 !~ /^(ack|ignored)$/ { bad = 1 }
                END { exit bad }'; then pass; else
            fail "kept threads of seed $seed: not their entries"
        fi
        run show < "$work/kept"
        expect "kept threads, shown" 0
    done
    run threads --seed 1 --count 1 --keep "$work/none/kept"
    expect "threads kept in a folder that there is not" 4 "write fault"
    if has_full "threads kept on a full device"; then
        run threads --seed 1 --count 1 --keep /dev/full
        expect "threads kept on a full device" 4 "write fault"
    fi
}

# how frames travel between threads, as kept runs of 20 seeds tell. The last line of the awk program: messages that were
# never delivered, that came again, that came after a later one; acknowledgements of which fewer were taken than made, and
# more, those that came after a later one, old ones, used ones; resets. Each has a third of what such runs have, or less
frames_travel() {
    local seed
    : > "$work/travels"
    for seed in $(seq 20); do
        run threads --seed "$seed" --count 200 --keep "$work/kept"
        expect "threads of seed $seed" 0
        [ "$(cat "$work/got")" = 0 ] || return
        adds_up "threads of seed $seed"
        run replay < "$work/kept"
        paste <(tail -n +2 "$work/kept") "$work/out" | awk -F '\t' '
            { split($1, event, " "); split($2, said, " "); number = event[2] + 0 }
            $2 ~ / #[0-9]+ (down|start|off|reset) / { unsent++ }
            event[1] == "deliver" { if (number in come) again++; else { unsent--; late += number < last }
                come[number]; if (number > last) last = number }
            said[2] == "ack" { it = number " " said[5] " " said[6]; ack[++acks] = it; made[it]++; since[it] = acks }
            event[1] == "take" { it = ack[number + 1]; took[it]++; takes[++count] = it }
            said[2] ~ /^(old|used)$/ { uses[said[2]]++ }
            event[1] == "reset" { resets++ }
            END { for (it in made) if (made[it] > took[it]) lost += made[it] - took[it]; else twice += took[it] - made[it]
                for (at = 1; at <= count; at++) { it = takes[at]
                    if (made[it] == 1 && took[it] == 1) { behind += since[it] < newest; if (since[it] > newest) newest = since[it] } }
                print unsent, again, late, lost, twice, behind, uses["old"], uses["used"], resets }' OFS=, >> "$work/travels"
    done
    if awk -F , '{ for (at = 1; at <= 9; at++) sums[at] += $at }
        END { split("200 250 200 300 40 50 400 300 50", floors, " ")
            for (at = 1; at <= 9; at++) bad += sums[at] < floors[at]; exit bad > 0 }' "$work/travels"; then pass; else
        fail "how frames travel"
        head -n 5 "$work/travels"
    fi
}

# threads that can't be made are a fault of its own, and soon: for a user who may have no process more,
# and where memory has no room for their stacks, or for all but some of them; those that were made wait
# asleep meanwhile, and all together take less than a second of a processor
no_threads() {
    local folder size begun took
    local -a limited=(prlimit --nproc=1)
    command -v prlimit > /dev/null || { skip "threads that can't be made" prlimit; return; }
    if [ "$(id -u)" = 0 ]; then
        # the limit does not hold for root
        command -v setpriv > /dev/null || { skip "threads that can't be made" setpriv; return; }
        limited=(setpriv --reuid 65534 --regid 65534 --clear-groups prlimit --nproc=1)
    fi
    folder=$(mktemp -d)
    chmod 755 "$folder"
    cp "$program" "$folder/psci_cli"
    processor_time
    begun=$spent
    timeout "$patience" "${limited[@]}" "$folder/psci_cli" threads --seed 1 --count 50 > "$work/out" 2> "$work/err"
    echo $? > "$work/got"
    processor_time
    took=$((spent - begun))
    expect "threads where no process may be made" 5 "out of threads"
    [ $took -lt 100 ] || fail "threads where no process may be made: $took hundredths of a second of a processor"
    rm -rf "$folder"
    some_threads
    : > "$work/lines"
    for size in 8192 6144; do
        in_room "$size" timeout "$patience" "$program" threads --seed 1 --count 50 > "$work/out" 2> "$work/err"
        echo $? > "$work/got"
        if [ "$(cat "$work/got")" = 5 ] && grep -qxE 'out of (threads|memory)' "$work/err"; then pass; else
            fail "threads in $size KiB of memory (status $(cat "$work/got")): $(cat "$work/err")"
        fi
        answers "threads in $size KiB of memory"
    done
}

# some of the threads of 64 cores have no room for their stacks: the others sleep
some_threads() {
    local begun took size came=0
    for size in 65536 131072 262144; do
        processor_time
        begun=$spent
        in_room "$size" timeout "$patience" "$program" threads --seed 1 --count 5 --board \
            "(16 16 16 16) exec 0x0-0x1000 boot 0x0 starts 1000 lives 3" > "$work/out" 2> "$work/err"
        echo $? > "$work/got"
        processor_time
        took=$((spent - begun))
        [ "$(cat "$work/got")" = 5 ] && [ "$(cat "$work/err")" = "out of threads" ] || continue
        came=$((came + 1))
        [ $took -lt 200 ] || fail "some threads in $size KiB: $took hundredths of a second of a processor"
    done
    if [ $came != 0 ]; then pass; else fail "no size of memory lets only some of the threads be made"; fi
}

# the counts of a storm: its line comes first as ever, then one line for each tally, and each event is in
# one of them; over some storms each tally comes
storm_counts() {
    local words seed tallies tall="((1 2) (2 1)) exec 0x0-0x1000 boot 0x0 starts 1000 lives 3 format extended"
    local low="(2 2) exec 0x40000000-0x40100000 boot 0x40000000 starts 1000 lives 12"
    tallies=$(grep -c '^[a-z].*:' tests/program/tally-floors.txt)
    run storm --seed 1 --count 10000
    cp "$work/out" "$work/lines"
    run storm --counts --seed 1 --count 10000
    expect "a storm with counts" 0
    cp "$work/out" "$work/counts"
    head -n 1 "$work/counts" > "$work/out"
    answers "a storm with counts"
    : > "$work/all"
    for seed in $(seq 20); do
        run storm --board "$low" --seed "$seed" --count 10000 --counts
        one_of_each "$tallies" "storm $seed"
        tail -n +2 "$work/out" >> "$work/all"
    done
    for seed in 1 2 3 4 5; do
        run storm --board "$tall" --seed "$seed" --count 10000 --counts
        one_of_each "$tallies" "storm $seed on a board of height 3"
        tail -n +2 "$work/out" >> "$work/all"
    done
    if awk -v tallies="$tallies" '{ n = $NF; $NF = ""; sum[$0] += n }
        END { for (tally in sum) if (sum[tally] > 0) came++; exit came != tallies }' "$work/all"; then pass; else
        fail "a tally that came in no storm"
    fi
    # the tallies stand in docs/port/FORMATS.md, in this order
    awk -F'|' '/^\| Asked \| Answers \|/ { on = 1; next } !/^\|/ { on = 0 } on && !/^\|-/ {
            gsub(/`/, ""); answers = $3
            if (sub(/ack applied A and ack applied A stale for A from 1 to 3 in turn/, "#", answers))
                sub(/#/, "ack applied 1, ack applied 1 stale, ack applied 2, ack applied 2 stale, ack applied 3, " \
                    "ack applied 3 stale", answers)
            names = split($2, name, /, and then /); count = split(answers, answer, ",")
            for (n = 1; n <= names; n++) for (i = 1; i <= count; i++) print name[n] answer[i] " "
        }' docs/port/FORMATS.md | tr -s ' ' | sed 's/^ //' > "$work/lines"
    sed -n '2,$s/[0-9]*$//p' "$work/counts" > "$work/out"
    answers "the tallies of docs/port/FORMATS.md"
    for words in "--counts=x" "--counts=true" "--counts x" "--counts --counts"; do
        # shellcheck disable=SC2086
        run storm --seed 1 --count 1 $words
        if [ "$(cat "$work/got")" = 2 ] && [ ! -s "$work/out" ] && [ -s "$work/err" ]; then pass; else
            fail "storm $words (status $(cat "$work/got"))"
        fi
    done
    if has_full "counts into a full device"; then
        "$program" storm --seed 1 --count 0 --counts 2> "$work/err" > /dev/full
        echo $? > "$work/got"
        expect "counts into a full device" 4 "write fault"
    fi
}

# on each kind of board each tally that can come there comes at least as often as tests/program/tally-floors.txt
# has it; and it is told where one comes less often, or comes where it cannot
tally_floors() {
    has_python tests/program/tally-floors || return 0
    if tests/program/tally-floors "$program" > "$work/out" 2> "$work/err"; then pass; else
        fail tests/program/tally-floors
        head -n 20 "$work/out" "$work/err"
    fi
    sed '/^board one-cluster/!{/^board/d}; s/^\(version return 65537:\) *[0-9]*/\1 999999/
        s/^\(cpu_on return 0:\) *[0-9]*/\1 l/; s/^\(cpu_off stop:\) *[0-9]*/\1 x/' \
        tests/program/tally-floors.txt > "$work/floors"
    tests/program/tally-floors "$program" "$work/floors" > "$work/all" 2> "$work/err"
    echo $? > "$work/got"
    expect "tests/program/tally-floors of a wrong table" 1
    sed 's/came [0-9]* times/came N times/; s/, though: .*/, though/; $d' "$work/all" > "$work/out"
    cat > "$work/lines" << 'END'
one-cluster: version return 65537 came N times, and the floor is 999999
one-cluster: cpu_off stop has x for a floor
one-cluster: cpu_on return 0 came N times, though
END
    answers "what tests/program/tally-floors tells"
}

# on each kind of board, running cores ask about what sleeps: in five storms NODE_HW_STATE answers HW_ON,
# HW_OFF and HW_STANDBY at least so often, and AFFINITY_INFO each of its answers
polled_storms() {
    local tree seed sixteen="16 16 16 16 16 16 16 16 16 16 16 16 16 16 16 16"
    for tree in 2 "(2 2)" "((1 2) (2 1))" "($sixteen)"; do
        : > "$work/all"
        for seed in 1 2 3 4 5; do
            run storm --board "$tree exec 0x0-0x1000 boot 0x0 starts 1000 lives 3" --seed "$seed" --count 10000 --counts
            tail -n +2 "$work/out" >> "$work/all"
        done
        if awk '{ sum[$1 " " $2 " " $3] += $NF }
            END { exit sum["node_hw_state return 0"] < 500 || sum["node_hw_state return 1"] < 40 ||
                sum["node_hw_state return 2"] < 3 || sum["affinity_info return 0"] < 100 ||
                sum["affinity_info return 1"] < 10 || sum["affinity_info return 2"] < 3 }' "$work/all"; then pass; else
            fail "storms on $tree ask seldom: $(grep -hE '^(node_hw_state|affinity_info) return' "$work/all" | tr '\n' ',')"
        fi
    done
}

# one_of_each TALLIES NAME: so many tallies are counted, each once, and the sum is the number of events
one_of_each() {
    local answer="return -?[0-9]+|stop|enter|resume|started|ack applied [0-4]( stale)?|used|old|ignored|absent"
    if awk -v tallies="$1" 'NR == 1 { events = $3; next }
        { n = $NF; $NF = ""; if ($0 in seen) exit twice = 1; seen[$0]; sum += n }
        END { exit twice || NR != tallies + 1 || sum != events }' "$work/out" &&
        ! tail -n +2 "$work/out" | grep -qvxE "[a-z_0-9]+ ($answer) [0-9]+"; then pass; else
        fail "$2: its counts"
    fi
}

# with ever less memory a storm has its line, then is out of memory, and at last is not loaded
storm_memory() {
    local size ended refused=0
    : > "$work/script"
    run storm --seed 3 --count 2000
    cp "$work/out" "$work/lines"
    for size in $(seq 16384 -16 512); do
        if ! ended=$(in_memory "$size" storm --seed 3 --count 2000); then
            fail "storm in $size KiB of memory (status $(cat "$work/got")): $(cat "$work/err")"
            return
        fi
        [ "$ended" != refused ] || refused=$((refused + 1))
        [ "$ended" != unloaded ] || break
    done
    if [ "$refused" -gt 0 ]; then pass; else fail "no amount of memory was too little for a storm"; fi
}
