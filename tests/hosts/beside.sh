# Peers beside the library in one process (docs/compare/BESIDE.md), sourced by ./test after tests/hosts/ffi.sh: our own
# library behind the edge of a port, without a fault and with each that is planted; the library with a sanitizer
# and by the kit's other compiler; what it reads, and what machines call their things; and of a peer whose sources
# are here the stored inputs and each story of its report.

beside=hosts/beside
# of which sources can be had: those of Debian 12, and of what is newer
peers_beside=(kvm kvm-7.1 qemu qemu-10.0 tfa tfa-2.12 xen stm32 stm32-2025.01 mx7 optee)

# build_beside PEER NAME [EDIT]: a target without a fuzzer; PROFILE is another profile
build_beside() {
    NAME=$2 EDIT=${3-} OUT=$work/beside LIB_FUZZING_ENGINE=none CFLAGS=-O1 "$beside/build" --offline "$1" \
        > "$work/err" 2>&1 || { fail "$beside/build $1"; tail -n 5 "$work/err"; false; }
}

# the library beside itself: stored inputs, and blind ones; then each planted fault has to show in them
own_beside() {
    local name edit status
    mkdir -p "$work/beside/inputs"
    xz -dc "$beside/peers/own/inputs.tar.xz" | tar -x -C "$work/beside/inputs"
    build_beside own own || return
    if "$work/beside/own" "$work/beside/inputs"/* > "$work/out" 2>&1 &&
        "$work/beside/own" --draws 2000 >> "$work/out" 2>&1; then pass; else
        fail "the library beside itself"
        tail -n 20 "$work/out"
    fi
    "$work/beside/own" > "$work/out" 2>&1
    if [ $? = 2 ] && grep -q 'TARGET --draws N' "$work/out"; then pass; else fail "$beside: a target that is run bare"; fi
    for name in bits build corpus faults scripts; do
        if "$beside/$name" --help > "$work/out" 2> "$work/err" && grep -q "hosts/beside/$name " "$work/out" && [ ! -s "$work/err" ]; then pass; else
            fail "$beside/$name --help"
        fi
    done
    while IFS='|' read -r name edit; do
        echo "$edit" > "$work/edit"
        build_beside own faulty "$work/edit" || continue
        status=0
        { "$work/beside/faulty" "$work/beside/inputs"/* > "$work/out" 2>&1 || status=$?; } 2> /dev/null
        if [ "$status" -ge 128 ] && grep -q '^+ ' "$work/out"; then pass; else
            fail "$beside: stored inputs do not show this fault (status $status): $name"
        fi
    done < "$beside/peers/own/faults"
}

# each bit of each register: by the commit a 64th of the faults that hosts/beside/bits plants in the library, and a 512th
# of those in the peers of Debian 12 and in TF-A 2.12; draws without upper halves have to be told
bits_beside() {
    local part peers=() peer which
    part=$((16#$(git rev-parse --short=6 HEAD 2> /dev/null || echo 0) % 512 + 1))
    for which in $((part % 64 + 1))/64:own $part/512:{kvm,xen,qemu,tfa,tfa-2.12}; do
        peer=${which#*:}
        [ "$peer" = own ] || has_sources "$peer" || continue
        [ "$peer" = own ] || peers+=("$peer")
        if "$beside/bits" --part "${which%:*}" "$peer" > "$work/out" 2>&1; then pass; else
            fail "$beside/bits --part ${which%:*} $peer"
            tail -n 20 "$work/out"
        fi
    done
    # a peer that is reset where it has to go off, or the other way
    if [ ${#peers[@]} = 0 ]; then :; elif "$beside/bits" --only 'SYSTEM_(OFF|RESET): bit 0 of the' "${peers[@]}" > "$work/out" 2>&1 &&
        grep -q "^$((2 * ${#peers[@]})) planted faults: each is seen" "$work/out"; then pass; else
        fail "$beside/bits: a system that ends in another way is not told"
        tail -n 20 "$work/out"
    fi
    # a refusal of SMC64 that is no whole register shows in this alone
    if "$beside/bits" --only 'SYSTEM_RESET2(_64)?: bit 30 of the function word' own > "$work/out" 2>&1; then pass; else
        fail "$beside/bits: a refusal in 32 bits is not told"
    fi
    sed 's/x\[at\] >> 32 ? narrowed(x\[at\]) : x\[at\]/(uint32_t)x[at]/' "$beside/draws.c" > "$work/draws.c"
    DRAWS=$work/draws.c "$beside/bits" --seconds 1 --only 'CPU_ON: bit 4[0-2] of x1' own > "$work/out" 2>&1
    if [ $? = 1 ] && [ "$(grep -c '^own: not found: ' "$work/out")" = 3 ]; then pass; else
        fail "$beside/bits: draws without upper halves are not told"
        tail -n 5 "$work/out"
    fi
}

has_sources() { "$beside/build" --offline --sources "$1" 2> /dev/null; }

# a report is there from the first group on, though the process is killed; a call that never comes back is ended
report_beside() {
    local loops='s/^    obey(core, x\[0\], &answer, did);/    while ((uint32_t)x[0] == 0x84000008) __asm__ volatile("");\n&/'
    echo "$loops" > "$work/edit"
    build_beside own loops "$work/edit" || return
    { (ulimit -t 20; BESIDE_REPORT=$work/loops exec "$work/beside/loops" --draws 1000000) > "$work/out" 2>&1 || true; } 2> /dev/null
    if grep -q '^+ SYSTEM_OFF: ours stops, theirs does not come back$' "$work/loops" &&
        grep -q '^  theirs: does not come back$' "$work/loops" && grep -q '^  by: PowerCalls.system_message: the core' "$work/loops"
    then pass; else
        fail "$beside: a port that loops"
        tail -n 5 "$work/out"
    fi
}

# baseline_beside NAME EDIT EDIT: what a port with the first edit differs in is known then; so it shows nothing new,
# and one with the other edit does
baseline_beside() {
    echo "$2" > "$work/edit"
    build_beside own first "$work/edit" || return
    BESIDE_REPORT=$work/known "$work/beside/first" --draws 4000 > "$work/out" 2>&1
    export REPORT=$work/known
    if build_beside own first "$work/edit" && "$work/beside/first" --draws 4000 > "$work/out" 2>&1; then pass; else
        fail "$beside: what is known is told: $1"
        tail -n 3 "$work/out"
    fi
    echo "$3" > "$work/edit"
    build_beside own second "$work/edit" && { "$work/beside/second" --draws 4000 > "$work/out" 2>&1 || true; } 2> /dev/null
    unset REPORT
    if grep -q '^beside: a new group' "$work/out"; then pass; else
        fail "$beside: a known group hides this: $1"
        tail -n 3 "$work/out"
    fi
}

# what is known hides nothing else: other states, the same in the other mode, and what comes in other lists than before;
# and what has vanished is told
known_beside() {
    local call='^    obey(core, x\[0\], &answer, did);' mode
    mode='if ((uint32_t)x[0] == 0x8400000f \&\& answer.code == 0) mode = (uint32_t)x[1];'
    baseline_beside "CPU_OFF claims cluster and system" \
        "s/$call/&\\n    if (x[0] == 0x84000002) did->depths[2] = 3;/" \
        "s/$call/&\\n    if (x[0] == 0x84000002) did->depths[1] = did->depths[2] = 3;/"
    baseline_beside "a suspend is refused in OS-initiated mode" \
        "s/^struct port port;/&\\nstatic uint32_t mode;/;s/$call/    $mode\\n&\\n    if (x[0] == 0xc4000001 \\&\\& !mode) did->what = 0, did->x0 = -3ul;/" \
        "s/$call/&\\n    if (x[0] == 0xc4000001) did->what = 0, did->x0 = -3ul;/"
    baseline_beside "a CPU_ON is refused otherwise, and with an upper half once more" \
        "s/$call/&\\n    if ((uint32_t)x[0] == 0x84000003 \\&\\& did->x0 == -9u) did->x0 = -6u;/" \
        "s/$call/&\\n    if ((uint32_t)x[0] == 0x84000003 \\&\\& did->x0 == -9u)\\n        did->x0 = x[2] >> 32 \\&\\& x[2] \\& 3 \\&\\& (uint32_t)x[2] >> 29 != 2 ? -3u : -6u;/"
    baseline_beside "AFFINITY_INFO passes over Aff2 of a core" \
        's/core, x\[0\], x\[1\],/core, x[0], x[0] == 0xc4000004 \&\& (uint32_t)x[2] ? x[1] \& ~0xff0000ul : x[1],/' \
        's/core, x\[0\], x\[1\],/core, x[0], x[0] == 0xc4000004 ? x[1] \& ~0xff0000ul : x[1],/'
    printf '= never seen\n  seen: in 900 of 1000 lists\n= seldom seen\n  seen: in 1 of 1000 lists\n' > "$work/known"
    REPORT=$work/known build_beside own first &&
        BESIDE_REPORT=$work/vanished "$work/beside/first" --draws 100 > "$work/out" 2>&1
    if grep -q '^beside: a group has vanished: never seen$' "$work/out" && [ "$(grep -c '^- ' "$work/vanished")" = 1 ]; then pass; else
        fail "$beside: a group that has vanished is not told"
    fi
    counted_beside
}

# a fault that shows as a known group does, in other lists
counted_beside() {
    echo 's/did->context = answer->context/did->context = port.many_acks % 5 ? answer->context : 0/' > "$work/edit"
    build_beside own first "$work/edit" || return
    BESIDE_REPORT=$work/known "$work/beside/first" --draws 1000 > /dev/null 2>&1
    echo 's/did->context = answer->context/did->context = port.many_acks % 4 ? answer->context : 0/' > "$work/edit"
    REPORT=$work/known build_beside own first "$work/edit" && "$work/beside/first" --draws 1000 > "$work/out" 2>&1
    if grep -q '^beside: a group comes in [0-9]* lists, and not [0-9]*: entry by CPU_ON: the context id is 0' "$work/out"; then pass; else
        fail "$beside: a known group that comes in other lists is not told"
        tail -n 3 "$work/out"
    fi
}

# one_group NAME EDIT GROUP: all that a port with this edit does otherwise is this group
one_group() {
    echo "$2" > "$work/edit"
    build_beside own caused "$work/edit" || return
    BESIDE_REPORT=$work/caused "$work/beside/caused" --draws 4000 > "$work/out" 2>&1
    if [ "$(grep '^[+=-]' "$work/caused")" = "+ $3" ]; then pass; else
        fail "$beside: one cause is several groups: $1"
        grep '^[+=-]' "$work/caused"
    fi
}

# one cause is one group: what a profile lacks, in either mode; and a half of a register that a later event shows
caused_beside() {
    local call='^    obey(core, x\[0\], &answer, did);' entry='^    obey(core, 0, &answer, did);'
    one_group "an unknown function" \
        "s/$call/&\\n    if ((uint32_t)x[0] != 0x8400000a \\&\\& (did->x0 == -1u || did->x0 == -1ul)) did->x0--;/" \
        "a function that the profile lacks: ours -1, theirs -2"
    one_group "an upper half" "s/^struct port port;/&\\nstatic uint64_t upper[4];/
        s/$call/    if (((uint32_t)x[0] | 1 << 30) == 0xc4000003 \\&\\& answer.code == 0)\\n        upper[(x[1] >> 7 \\& 2) | (x[1] \\& 1)] = x[0] >> 30 \\& 1 ? 0 : x[2] >> 32;\\n&/
        s/$entry/&\\n    if (start.cause == PSCI_CAUSE_ON) did->address |= upper[core] << 32;\\n    upper[core] = 0;/" \
        "an upper half counts"
}

# the same on boards of many cores, of many levels and of the extended format, with a fault for each that has
# to show there
boards_beside() {
    local board name edit status
    while IFS='|' read -r board name edit; do
        export PROFILE=$beside/peers/own/boards/$board
        echo "$edit" > "$work/edit"
        build_beside own "$board" && "$work/beside/$board" --draws 200 > "$work/out" 2>&1 && pass ||
            fail "the library beside itself on $PROFILE"
        status=0
        build_beside own faulty "$work/edit" &&
            { "$work/beside/faulty" --draws 200 > "$work/out" 2>&1 || status=$?; } 2> /dev/null
        if [ "$status" -ge 128 ] && grep -q '^+ ' "$work/out"; then pass; else
            fail "$beside: draws on $board do not show this fault (status $status): $name"
        fi
    done < "$beside/peers/own/board-faults"
    unset PROFILE
}

# has_own_stories KIND: inputs and blind lists on a target of the library beside itself, which is $work/beside/KIND
has_own_stories() {
    "$work/beside/$1" "$work/beside/inputs"/* > "$work/out" 2>&1 && "$work/beside/$1" --draws 300 >> "$work/out" 2>&1
}

# a unit test as a firmware's own project would write it: it links one C file of ours, a heap and the archive
unit_beside() {
    build_c beside-unit tests/hosts/beside-unit.c "$beside/beside.c" || return
    if "$work/beside-unit" > "$work/out" 2>&1; then pass; else
        fail tests/hosts/beside-unit.c
        cat "$work/out"
    fi
    # a firmware that keeps the context id does not differ there, which the test has to tell
    sed 's/^    did->address = mine->entry\[core\];/&\n    did->context = 7;/' tests/hosts/beside-unit.c > "$work/keeps.c"
    build_c keeps "$work/keeps.c" "$beside/beside.c" || return
    if ! "$work/keeps" > "$work/out" 2>&1 && grep -q 'the context id is not missed' "$work/out"; then pass; else
        fail "tests/hosts/beside-unit.c: a firmware without its fault is not told"
    fi
}

# the library as it is compiled without a proof; over the check that is kept as the kit's other compiler makes it, and
# with AddressSanitizer: beside itself, and on what it reads; a block of the heap that is too short has to be told
compiled_beside() {
    local archives=out/beside/archives
    built_archive --unproved plain && ARCHIVE=$archives/plain.a build_beside own unproved && has_own_stories unproved &&
        pass || fail "the library as it is compiled without a proof, beside itself"
    built_archive rattle && OTHER=$archives/rattle.a build_beside own by-rattle && has_own_stories by-rattle && pass ||
        fail "the library as the kit's other compiler makes it, beside itself"
    has_clang_runtime || { skip "the library with a sanitizer" "clang with libclang-rt-dev"; return; }
    built_archive sanitized && sanitized_beside "$archives/sanitized.a"
}

built_archive() {
    "$beside/archives" "$@" > "$work/out" 2>&1 || { fail "$beside/archives $*"; tail -n 5 "$work/out"; false; }
}

has_clang_runtime() {
    echo 'int main(void) { return 0; }' > "$work/empty.c"
    clang -fsanitize=address -o "$work/empty" "$work/empty.c" 2> /dev/null
}

# with_sanitizer ARCHIVE WORD..: hosts/beside/build with these words over an archive with a sanitizer
with_sanitizer() {
    env CC=clang CFLAGS="-O1 -g -fsanitize=address" ARCHIVE="$1" OUT="$work/beside/sanitized" LIB_FUZZING_ENGINE=none \
        "${@:2}" > "$work/err" 2>&1 || { fail "$beside/build with a sanitizer"; tail -n 5 "$work/err"; false; }
}

sanitized_beside() {
    local folder=$work/beside/sanitized
    with_sanitizer "$1" "$beside/build" own bytes machines || return
    if {
        "$folder/own" "$work/beside/inputs"/* && "$folder/own" --draws 100 && "$folder/bytes" "$beside/bytes.txt" &&
            "$folder/bytes" --draws 5000 "$beside/bytes.txt" && "$folder/machines" --draws 1000
    } > "$work/out" 2>&1; then pass; else
        fail "the library with a sanitizer"
        tail -n 20 "$work/out"
    fi
    echo 's/malloc(size ? size : align)/malloc(size > 8 ? size - 1 : align)/' > "$work/edit"
    with_sanitizer "$1" EDIT="$work/edit" NAME=short "$beside/build" bytes || return
    ! "$folder/short" "$beside/bytes.txt" > "$work/out" 2>&1
    if grep -q '^SUMMARY: AddressSanitizer: heap-buffer-overflow' "$work/out"; then pass; else
        fail "the library with a sanitizer: a block that is too short is not told"
    fi
}

# machines in their own words: blind lists reach each fault that there is, calls that ask for states and for resets, and
# each wrong meaning of a word shows in them
machines_beside() {
    local name edit fault missed='' status
    build_beside machines machines || return
    if "$work/beside/machines" --draws 5000 > "$work/out" 2>&1; then pass; else
        fail "$beside/machines.c"
        tail -n 3 "$work/out"
    fi
    for fault in 64 65 66 67 68 69 70 73 74 75 76 77 78; do
        grep -qE "^fault $fault: [1-9]" "$work/out" || missed+=" $fault"
    done
    if [ -z "$missed" ] && grep -qE '[0-9]{3} with states, [0-9]{3} with a reset$' "$work/out"; then pass; else
        fail "$beside/machines.c: draws do not reach$missed, or ask too little"
    fi
    while IFS='|' read -r name edit; do
        echo "$edit" > "$work/edit"
        build_beside machines faulty-machines "$work/edit" || continue
        status=0
        { "$work/beside/faulty-machines" --draws 5000 > "$work/out" 2>&1 || status=$?; } 2> /dev/null
        if [ "$status" -ge 128 ] && grep -q '^machines: ' "$work/out"; then pass; else
            fail "$beside: draws of machines do not show (status $status): $name"
        fi
    done < "$beside/naming-faults"
}

# what the library reads: every answer that it can have comes, which the second model has, too; where no input
# has it any more, that is told; and what is changed blindly is read alike by both halves
bytes_beside() {
    local list=$beside/bytes.txt
    build_beside bytes bytes || return
    if "$work/beside/bytes" "$list" > "$work/out" 2>&1 && tests/hosts/bytes-by-model "$list" >> "$work/out" 2>&1 &&
        "$work/beside/bytes" --draws 20000 "$list" >> "$work/out" 2>&1; then pass; else
        fail "$list"
        tail -n 5 "$work/out"
    fi
    sed '/^text 4/d' "$list" > "$work/list"
    "$work/beside/bytes" "$work/list" > "$work/out" 2>&1
    if grep -q '^no input reaches 4 of psci_open$' "$work/out"; then pass; else fail "$beside/bytes: a fault without an input"; fi
    sed 's/^frame 39 39 39/frame 39 39 40/; s/^text 6/text 5/; s/^machine 77/machine 78/' "$list" > "$work/list"
    if ! "$work/beside/bytes" "$work/list" > "$work/out" 2>&1 && [ "$(grep -c ' and not ' "$work/out")" = 6 ] &&
        ! tests/hosts/bytes-by-model "$work/list" > /dev/null; then pass; else fail "$beside/bytes: answers at fault"; fi
}

# a sweep of blind lists is the same however it is cut, and tells what differs; of the targets that were built
# above, the second one with a fault
swept_beside() {
    local words=(sweep beside --seeds 1..4 --count 30)
    ./psci "${words[@]}" --out "$work/by-one" --target "$work/beside/own" --chunk 4 > "$work/lines" 2> /dev/null &&
        ./psci "${words[@]}" --out "$work/by-four" --target "$work/beside/own" --chunk 1 > "$work/out" 2> /dev/null &&
        cmp -s "$work/lines" "$work/out" && grep -q '4 runs, 120 lists, ' "$work/out" && pass ||
        fail "./psci sweep beside: two reports of the same lists"
    ./psci "${words[@]}" --out "$work/by-faulty" --target "$work/beside/faulty" --chunk 4 > "$work/out" 2> /dev/null
    if [ $? = 6 ] && grep -q '^differs: 4 x ' "$work/out" && [ -s "$work/by-faulty/failed/faulty-1.groups" ]; then pass; else
        fail "./psci sweep beside: a fault is not told"
    fi
}

# what was found of a peer stays found: each story is a script, whether its sources are here or not
stories_beside() {
    local peer lists report
    local -a inputs known
    mapfile -t known < <(cd "$beside/peers" && ls -- */report | sed 's|/report||' | grep -v '^own$')
    if "$beside/scripts" --check "${known[@]}" > "$work/out"; then pass; else
        fail "$beside/scripts --check"
        cat "$work/out"
    fi
    { cat "$beside/peers/tfa/report"; printf '\n= never seen\n  ours: x\n  | board 4\n  | wake 3\n'; } > "$work/report"
    if ! REPORT=$work/report "$beside/scripts" --check tfa > "$work/out" && grep -q 'never seen' "$work/out"; then pass; else
        fail "$beside/scripts --check: a story without a script is not told"
    fi
    for peer in "${peers_beside[@]}"; do
        if ! has_sources "$peer"; then
            skip "the stories of $peer" "source package of it"
            continue
        fi
        build_beside "$peer" "$peer" || continue
        # a newer version without a report has that of its elder
        report=$beside/peers/$peer/report
        [ -e "$report" ] || report=$beside/peers/$(cat "$beside/peers/$peer/elder")/report
        "$beside/corpus" --unpack "$peer" "$work/beside/inputs-$peer"
        mapfile -t inputs < <(compgen -G "$work/beside/inputs-$peer/*")
        [ ${#inputs[@]} != 0 ] || inputs=(--draws 2000)
        if "$work/beside/$peer" --stories "$report" > "$work/out" 2>&1 &&
            "$work/beside/$peer" "${inputs[@]}" >> "$work/out" 2>&1; then pass; else
            fail "$peer: $report"
            tail -n 5 "$work/out"
        fi
        lists=$(grep -m 1 -o 'of [0-9]* lists' "$report" | tr -cd 0-9)
        BESIDE_REPORT=$work/made "$work/beside/$peer" --draws "$lists" > "$work/out" 2>&1
        if diff "$report" "$work/made" > "$work/out"; then pass; else
            fail "$peer: $report: made anew by $lists blind lists it is another one"
            head -n 5 "$work/out"
        fi
        sed 's/^  | enter 0$/&\n  | call 0 0x84000000 0x0 0x0 0x0/' "$report" > "$work/report"
        if ! "$work/beside/$peer" --stories "$work/report" > "$work/out" 2>&1 &&
            [ "$(grep -c '^event . can go: ' "$work/out")" = "$(grep -c '^= ' "$work/report")" ]; then pass; else
            fail "$beside: an event that a story of $peer doesn't need is not told"
            tail -n 5 "$work/out"
        fi
    done
}

# the lines of a peer's source that a report names, each as FILE:LINE `text`, stand there
lines_beside() {
    local reports=docs/compare/reports peer page where text source here=$beside package from version files more
    while read -r peer page; do
        has_sources "$peer" || continue
        package='' from=''
        . "$beside/peers/$peer/build"
        source=${GUMDARTS_CACHE:-$HOME/.cache/gumdarts}${from:+/$from}/beside/$package
        tr -s '\n ' ' ' < "$reports/$page" | grep -oE '[a-z0-9_-]+\.[cS]:[0-9]+ `[^`]*`' | sort -u > "$work/named"
        [ -s "$work/named" ] || fail "$reports/$page names no line of the sources"
        while read -r where text; do
            text=${text//\`/}
            if find "$source" -name "${where%:*}" -exec sed -n -s "${where#*:}p" {} + | grep -qF -- "$text"; then pass; else
                fail "$reports/$page: $where is not $text"
            fi
        done < "$work/named"
    done < <(sed -n 's/^| \[.*\](\(.*\.md\)) | \([a-z0-9.-]*\) |.*/\2 \1/p' "$reports/README.md")
}

# what is known of TF-A 2.12, whose OS-initiated mode differs in many ways, hides no fault in that mode
modes_beside() {
    local name edit
    has_sources tfa-2.12 || return 0
    if "$work/beside/tfa-2.12" --draws 20000 > "$work/out" 2>&1; then pass; else
        fail "$beside/peers/tfa-2.12: it differs as it is from what its report has"
        tail -n 3 "$work/out"
    fi
    while IFS='|' read -r name edit; do
        echo "$edit" > "$work/edit"
        build_beside tfa-2.12 faulty-modes "$work/edit" || continue
        { "$work/beside/faulty-modes" --draws 100000 > "$work/out" 2>&1 || true; } 2> /dev/null
        if grep -q '^beside: a new group' "$work/out"; then pass; else
            fail "$beside/peers/tfa-2.12: what is known hides this: $name"
        fi
    done < <(grep -E '^(a suspend skips|CPU_OFF always claims)' "$beside/peers/tfa-2.12/faults")
}

# what TF-A does within a call, where its sources are here; a TF-A that never says OFF does not do it
moments_beside() {
    [ -x "$work/beside/tfa-moments" ] || return 0
    if "$work/beside/tfa-moments" > "$work/out" 2>&1 && [ "$(cut -d : -f 1 "$work/out" | xargs)" = '1 3 4 9' ]; then pass; else
        fail "$beside/peers/tfa/moments.c"
        cat "$work/out"
    fi
    echo 's/psci_set_aff_info_state(AFF_STATE_OFF)/psci_set_aff_info_state(AFF_STATE_ON)/' > "$work/edit"
    build_beside tfa always-on "$work/edit" || return
    "$work/beside/always-on-moments" > "$work/out" 2>&1
    if [ $? = 1 ] && grep -q '^1: not seen' "$work/out" && grep -q '^9: not seen' "$work/out"; then pass; else
        fail "$beside/peers/tfa/moments.c: a TF-A that never says OFF is not told"
    fi
}

in_one_process() {
    has_cc "peers in one process" && has_python "peers in one process" && has_xz "peers in one process" || return
    unit_beside
    own_beside
    bits_beside
    report_beside
    known_beside
    caused_beside
    boards_beside
    swept_beside
    bytes_beside
    machines_beside
    compiled_beside
    stories_beside
    lines_beside
    modes_beside
    moments_beside
}
