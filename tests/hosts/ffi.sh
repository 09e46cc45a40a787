# The firmware and the power controller as a C library, sourced by ./test after tests/program/program.sh: the
# archives that `./psci prove lib` builds in out/lib/, and the hosts of hosts/ over that for this
# machine.

archive=out/lib/x86_64/libpsci_ffi.a
plain=out/lib/aarch64/libpsci_ffi.a
aligned=out/lib/aarch64/libpsci_ffi-strict-align.a
# what an archive may want of its user; how many bytes of text and data it may have, where an access
# that is not aligned is made of bytes, too; and a call of stack
wants='memcpy|memmove|memset|rattle_alloc|rattle_realloc|rattle_dealloc'
most_text=135168
most_aligned_text=204800
most_stack=8192

has_cc() { command -v cc > /dev/null || { skip "$1" cc; false; }; }

# built MACHINE: the archives for a machine are built, and what is said of their sums is so
built() {
    rm -rf "out/lib/$1"
    if ./psci prove lib --target "$1" < /dev/null > "$work/lib" 2>&1 &&
        (cd "out/lib/$1" && sha256sum --quiet -c SHA256SUMS) >> "$work/lib" 2>&1; then pass; else
        fail "./psci prove lib --target $1"
        tail -n 20 "$work/lib"
        return 1
    fi
}

# build_c NAME SOURCE..: a C program over the archive and the pool
build_c() {
    cc -std=c11 -O2 -pthread -Wall -Wextra -Werror -Iinclude -Ihosts -o "$work/$1" "${@:2}" \
        hosts/pool.c "$archive" > "$work/err" 2>&1 || { fail "$2"; head -n 20 "$work/err"; false; }
}

# at_most WHAT NUMBER MOST: says the number, which is at most so large
at_most() {
    say "$1: $2 bytes"
    if [ "$2" -le "$3" ]; then pass; else fail "$1: $2 bytes, more than $3"; fi
}

# deepest FILE: the most stack that a call takes by the code of a file, if that can be bounded
deepest() {
    tests/hosts/stack-need "$1" > "$work/out" 2> "$work/err" &&
        awk '$2 > most { most = $2 } END { print most }' "$work/out"
}

# measured ARCHIVE: what it wants, how large it is, and how much stack a call takes by its code
measured() {
    local beyond stack most=$most_text
    [ "$1" != "$aligned" ] || most=$most_aligned_text
    beyond=$(nm --undefined-only "$1" | awk 'NF == 2 { print $2 }' | grep -Evx "$wants")
    if [ -z "$beyond" ]; then pass; else fail "$1 wants $beyond"; fi
    at_most "text and data of $1" \
        "$(size "$1" | awk 'NR > 1 { sum += $1 + $2 + $3 } END { print sum }')" "$most"
    if stack=$(deepest "$1"); then pass; else
        fail "tests/hosts/stack-need $1"
        return
    fi
    at_most "the stack of a call by $1" "$stack" "$most_stack"
}

# the archives for two machines, the same again when they are built again
c_archive() {
    local machine file
    has_cc "the archives" && has_python "the archives" || return
    say "building the library, minutes where the crates below it are not kept yet"
    for machine in x86_64 aarch64; do
        built "$machine" || return
        cp "out/lib/$machine/SHA256SUMS" "$work/sums"
        built "$machine" || return
        if cmp -s "$work/sums" "out/lib/$machine/SHA256SUMS"; then pass; else
            fail "the archives for $machine, built twice"
            diff "$work/sums" "out/lib/$machine/SHA256SUMS"
        fi
    done
    for file in "$archive" "$plain" "$aligned"; do measured "$file"; done
}

# marked FILE: an archive says that it was not proved
marked() { nm --defined-only "$1" 2> /dev/null | grep -q " psci_unproved$"; }

# archives before any proof: the same calls and registers, by their symbol told from proved ones, also in a record
c_unproved() {
    local file folder=out/lib/aarch64-unproved
    has_cc "unproved archives" && has_python "unproved archives" || return
    for file in "--target aarch64" ""; do
        # shellcheck disable=SC2086
        if ./psci prove lib --unproved $file < /dev/null > "$work/out" 2>&1; then pass; else
            fail "./psci prove lib --unproved $file"
            tail -n 5 "$work/out"
            return
        fi
    done
    if (cd "$folder" && sha256sum --quiet -c SHA256SUMS); then pass; else fail "$folder/SHA256SUMS"; fi
    for file in "$plain" "$aligned" "$archive"; do
        if marked "${file%/*}-unproved/${file##*/}" && ! marked "$file"; then pass; else fail "psci_unproved of $file"; fi
        nm --defined-only "$file" | awk '$2 == "T" && $3 ~ /^psci_/ { print $3 }' | sort > "$work/lines"
        nm --defined-only "${file%/*}-unproved/${file##*/}" | awk '$2 == "T" && $3 ~ /^psci_/ { print $3 }' | sort > "$work/out"
        answers "the calls of ${file%/*}-unproved/${file##*/}"
    done
    if tests/hosts/plain-code "$folder/libpsci_ffi-strict-align.a" --aligned > "$work/out" 2>&1; then pass; else
        fail "tests/hosts/plain-code $folder/libpsci_ffi-strict-align.a --aligned"
    fi
    for file in out/lib/x86_64-unproved/libpsci_ffi.a "$archive"; do
        cc -std=c11 -O2 -Wall -Wextra -Werror -Iinclude -o "$work/marks" tests/hosts/programs/marks.c hosts/pool.c -Ihosts \
            "$file" 2> "$work/err" && "$work/marks" > "$work/record" || fail "tests/hosts/programs/marks.c over $file"
        cat tests/hosts/records/short.record >> "$work/record"
        ./psci compare "$work/record" > "$work/out" 2>&1 || fail "a record over $file"
        grep -c "the port was linked with an unproved library" "$work/out"
    done > "$work/told"
    if [ "$(tr '\n' ' ' < "$work/told")" = "1 0 " ]; then pass; else
        fail "what ./psci compare says of an archive without a proof: $(tr '\n' ' ' < "$work/told")"
    fi
}

# refused NAME WORD..: tests/hosts/plain-code does not let this pass
refused() {
    local name=$1
    shift
    tests/hosts/plain-code "$@" > "$work/out" 2> "$work/err"
    if [ $? = 1 ] && [ -s "$work/out" ]; then pass; else fail "tests/hosts/plain-code lets $name pass"; fi
}

# stack_of NAME LINE..: sets the most stack that a call takes by these lines for aarch64; nothing where it is not bounded
stack_of() {
    local clang
    clang=$(dirname "$(dirname "$(realpath "$(command -v rt)")")")/toolchain/bin/clang
    printf '%s\n' "${@:2}" > "$work/$1.s"
    "$clang" --target=aarch64-unknown-linux-gnu -c -o "$work/$1.o" "$work/$1.s"
    stack=$(deepest "$work/$1.o")
}

# too_deep NAME LINE..: these lines take more stack than a call may, and tests/hosts/stack-need says so
too_deep() {
    local stack
    stack_of "$@"
    if [ -n "$stack" ] && [ "$stack" -gt "$most_stack" ]; then pass; else
        fail "tests/hosts/stack-need says of $1: '$stack'"
    fi
}

# unbounded NAME LINE..: what these lines take cannot be bounded, and tests/hosts/stack-need says why
unbounded() {
    local stack
    stack_of "$@"
    if [ -z "$stack" ] && [ -s "$work/err" ]; then pass; else
        fail "tests/hosts/stack-need bounds $1: '$stack'"
    fi
}

# a call that takes more stack than it may is found, by itself or by what it calls
c_stack() {
    local stack page=' sub sp, sp, #1, lsl #12' back=' add sp, sp, #1, lsl #12'
    has_python "planted calls that take much stack" || return
    stack_of as_much psci_call: "$page" ' bl inner' "$back" ' ret' inner: "$page" "$back" ' ret'
    if [ "$stack" = "$most_stack" ]; then pass; else fail "tests/hosts/stack-need: '$stack' of 8192"; fi
    too_deep inner psci_call: "$page" ' bl inner' "$back" ' ret' \
        inner: "$page" ' sub sp, sp, #16' ' add sp, sp, #16' "$back" ' ret'
    too_deep pushed psci_call: ' stp x29, x30, [sp, #-16]!' ' sub sp, sp, #2, lsl #12' \
        ' add sp, sp, #2, lsl #12' ' ldp x29, x30, [sp], #16' ' ret'
    too_deep jump psci_call: ' b inner' inner: ' sub sp, sp, #3, lsl #12' ' add sp, sp, #3, lsl #12' \
        ' ret'
    unbounded itself psci_call: ' bl psci_call' ' ret'
    unbounded pointer psci_call: ' blr x1' ' ret'
    unbounded register psci_call: ' sub sp, sp, x1' ' ret'
    unbounded behind psci_call: ' str x0, [sp], #-16' ' ret'
    unbounded in_turn psci_call: ' bl inner' ' ret' inner: ' bl psci_call' ' ret'
    # what can't be read: no instruction; into the middle of a function; to what is not there; a function's address,
    # by which a jump through a register may leave its function
    unbounded no_code psci_call: ' .inst 0xffffffff' ' ret'
    unbounded middle psci_call: ' bl inner + 4' ' ret' inner: ' nop' ' ret'
    unbounded nowhere psci_call: ' bl another' ' ret'
    unbounded address psci_call: ' adrp x0, inner' ' add x0, x0, :lo12:inner' ' br x0' inner: ' ret'
    unbounded table psci_call: ' br x0' inner: ' ret' ' .section .rodata.table, "a"' ' .xword inner'
}

# the archives for aarch64 are of general registers alone, the second one of aligned accesses
c_registers() {
    local file words clang
    clang=$(dirname "$(dirname "$(realpath "$(command -v rt)")")")/toolchain/bin/clang
    has_python "the registers of the archives" || return
    for words in "$plain" "$aligned --aligned"; do
        # shellcheck disable=SC2086
        if tests/hosts/plain-code $words > "$work/out" 2>&1; then pass; else
            fail "tests/hosts/plain-code $words"
            head -n 20 "$work/out"
        fi
    done
    refused "an access that is not aligned" "$plain" --aligned
    echo "void copy(long *to, long *from) { __builtin_memcpy(to, from, 32); }" > "$work/copy.c"
    "$clang" --target=aarch64-unknown-linux-gnu -O2 -c -o "$work/copy.o" "$work/copy.c"
    refused "a copy through vector registers" "$work/copy.o"
    # eight bytes at a base and four, told as such; and at a base that was stepped on by four before
    printf 'f:\n ldur x0, [x1, #4]\n ret\n' > "$work/half.s"
    printf 'f:\n strb wzr, [x1, #4]!\n ldur x0, [x1, #4]\n ret\n' > "$work/whole.s"
    for file in half whole; do
        "$clang" --target=aarch64-unknown-linux-gnu -c -o "$work/$file.o" "$work/$file.s"
    done
    refused "eight bytes at four" "$work/half.o" --aligned
    if tests/hosts/plain-code "$work/whole.o" --aligned > "$work/out" 2>&1; then pass; else
        fail "tests/hosts/plain-code refuses eight bytes at twice four"
    fi
}

# on_bare_machine NAME ARCHIVE WORD..: hosts/boot.c over an archive on a bare machine, compiled with these words
on_bare_machine() {
    local name=$1 file=$2
    shift 2
    aarch64-linux-gnu-gcc -std=c11 -O2 -ffreestanding -fno-builtin -nostdlib -static \
        -mgeneral-regs-only -mstrict-align -mno-outline-atomics -Wl,-Ttext=0x40200000 \
        -Wl,--build-id=none -Wall -Wextra -Werror "$@" -Iinclude -Ihosts -o "$work/$name" \
        hosts/boot.c hosts/pool.c tests/hosts/programs/bare.c tests/hosts/programs/bare.S "$file" \
        > "$work/err" 2>&1 || { fail "$name"; head -n 20 "$work/err"; return; }
    timeout "$patience" qemu-system-aarch64 -M virt -cpu cortex-a57 -m 64 -nic none -display none -monitor none \
        -serial stdio -kernel "$work/$name" < /dev/null > "$work/out" 2> "$work/err"
}

# hosts/boot.c tells its story where a vector register is a fault, and over the second archive where an
# access that is not aligned is one, too, as which the first one has some
c_bare() {
    local tool
    for tool in aarch64-linux-gnu-gcc qemu-system-aarch64; do
        command -v "$tool" > /dev/null || { skip "the C library on a bare machine" "$tool"; return; }
    done
    for tool in "$plain" "$aligned -DCHECK_ALIGNMENT"; do
        # shellcheck disable=SC2086
        on_bare_machine "bare-boot" $tool
        if cmp -s hosts/boot.out "$work/out"; then pass; else
            fail "hosts/boot.c on a bare machine over $tool"
            diff hosts/boot.out "$work/out" | head -n 5
        fi
    done
    on_bare_machine "bare-boot" "$plain" -DCHECK_ALIGNMENT
    if grep -q "^exception: syndrome 0x96[0-9a-f]*[26]1 " "$work/out"; then pass; else
        fail "an access that is not aligned is no fault on a bare machine"
        head -n 5 "$work/out" "$work/err"
    fi
}

# lib_of KIT FRESH WORD..: ./psci prove lib with these words, there
lib_of() {
    local kit=$1 fresh=$2
    shift 2
    XDG_CACHE_HOME=$work/cache PATH=$kit/bin:$PATH "$fresh/psci" prove lib "$@" < /dev/null \
        > "$work/out" 2> "$work/proved"
    echo $? > "$work/got"
    tail -n 1 "$work/proved" > "$work/err"
}

# ./psci prove lib builds each archive by the kit's clang, with the words that it is called with and
# the flags of the archive before them
proving_lib() {
    local kit=$1 fresh=$2 machine file words
    for machine in "" x86_64 aarch64; do
        # shellcheck disable=SC2086
        lib_of "$kit" "$fresh" ${machine:+--target $machine}
        expect "./psci prove lib for ${machine:-no machine}" 0 "psci: built; the library is in out/lib/${machine:-x86_64}"
    done
    printf '%s\n' aarch64/{SHA256SUMS,libpsci_ffi-strict-align.a,libpsci_ffi.a} \
        x86_64/{SHA256SUMS,libpsci_ffi.a} > "$work/lines"
    printf '%s\n' {aarch64/psci-strict-align,{aarch64,x86_64}/psci}.pc >> "$work/lines"
    headers | sed 'h; s|^|aarch64/|p; g; s|^|x86_64/|' >> "$work/lines"
    LC_ALL=C sort -o "$work/lines" "$work/lines"
    (cd "$fresh/out/lib" && find . -type f | sed 's|^\./||' | LC_ALL=C sort) > "$work/out"
    answers "the files of ./psci prove lib"
    (cd "$fresh/out/lib" && for file in x86_64/*.a aarch64/*.a; do
        sh "$file" -c "a b" '$c' && echo " $file"
    done) > "$work/out"
    cat > "$work/lines" << 'END'
-mllvm;-unroll-runtime=0;-falign-loops=1;-mllvm;-inline-threshold=650;-c;a b;$c; x86_64/libpsci_ffi.a
-mgeneral-regs-only;-mstrict-align;-mllvm;-inline-threshold=570;-mllvm;-disable-machine-sink;-c;a b;$c; aarch64/libpsci_ffi-strict-align.a
-mgeneral-regs-only;-mllvm;-inline-threshold=570;-c;a b;$c; aarch64/libpsci_ffi.a
END
    answers "the clang of each archive"
    for words in "--target" "--target arm" "aarch64" "--target aarch64 x"; do
        # shellcheck disable=SC2086
        lib_of "$kit" "$fresh" $words
        expect "./psci prove lib $words" 2 \
            'psci: expected `psci prove [all | lib [--target MACHINE] [--unproved]]`; see `psci prove --help`'
    done
}

# tested PROGRAM WORD..: this program of tests/hosts/programs/ passes; library.c ends with the stack that a call
# took
tested() {
    if "$@" > "$work/out"; then pass; else
        fail "tests/hosts/programs by $*"
        head -n 20 "$work/out"
    fi
    # library.c alone paints it
    [[ $* != *library* ]] || at_most "the stack that a call took" \
        "$(awk '$1 == "stack" { print $2 }' "$work/out")" "$most_stack"
}

# from_plus FOLDER TOOL..: this compiler of C++ makes a program that gives the library its heap and calls it by these
# headers, and that is answered
from_plus() {
    "${@:2}" -std=c++11 -O2 -Wall -Wextra -pedantic -Werror "-I$1" -o "$work/plus" tests/hosts/programs/linked.cpp "$archive" \
        2> "$work/err" && [ "$("$work/plus")" = $'2 0x40000000\n0 0x10001' ]
}

# calls from C++, which a header without the linkage of C does not have
from_plus_plus() {
    local tool fresh=$work/headers
    mkdir -p "$fresh"
    cp include/*.h "$fresh"
    sed '/^extern "C" {/d; /^}$/d' include/psci.h > "$fresh/psci.h"
    for tool in g++ clang++; do
        command -v "$tool" > /dev/null || { skip "calls from C++" "$tool"; continue; }
        if from_plus include "$tool"; then pass; else
            fail "calls from C++ by $tool"
            head -n 5 "$work/err"
        fi
        if from_plus "$fresh" "$tool"; then fail "$tool links calls that have no linkage of C"; else pass; fi
    done
}

# a program that is built as pkg-config says of the archive beside it
by_pkg_config() {
    local words
    command -v pkg-config > /dev/null || { skip "calls by pkg-config" pkg-config; return; }
    words=$(PKG_CONFIG_PATH=${archive%/*} pkg-config --cflags --libs "psci >= 1.0.0") &&
        cc -std=c11 -Wall -Wextra -Werror -Ihosts -o "$work/by" tests/hosts/programs/marks.c hosts/pool.c $words 2> "$work/err" &&
        "$work/by" > "$work/out" && [ ! -s "$work/out" ] && pass || fail "calls by pkg-config"
}

# what no script comes to, of the firmware and of the power controller; calls from C++, and by pkg-config
c_calls() {
    local name
    from_plus_plus
    by_pkg_config
    has_cc "calls from C" || return
    if cc -std=c11 -O2 -Wall -Wextra -Werror -Iinclude -o "$work/heaps" tests/hosts/programs/heaps.c "$archive" 2> "$work/err"; then
        tested "$work/heaps"
    else
        fail "tests/hosts/programs/heaps.c"
        head -n 5 "$work/err"
    fi
    for name in library controller guest; do
        build_c "$name" "tests/hosts/programs/$name.c" || return
        tested "$work/$name"
    done
}

# unlike HEADER EDIT..: each of these exchanges in a header, which no compiler sees, is refused
unlike() {
    local header=$1 edit
    shift
    for edit in "$@"; do
        sed "$edit" "include/$header" > "$work/$header"
        if cmp -s "include/$header" "$work/$header" || tests/hosts/header "$work/$header" > "$work/out"; then
            fail "tests/hosts/header lets this through in $header: $edit"
        else
            pass
        fi
    done
}

# the compilers that are here, each with the languages in which it reads the headers
languages() {
    local tool standard
    for tool in gcc clang; do
        command -v "$tool" > /dev/null || continue
        for standard in c99 c11 c17 c2x; do echo "$tool -x c -std=$standard"; done
    done
    for tool in g++ clang++; do
        command -v "$tool" > /dev/null || continue
        for standard in c++11 c++17 c++20; do echo "$tool -x c++ -std=$standard"; done
    done
}

# reads FOLDER HEADER WORD..: a compiler takes a header of this folder that stands alone, and one that stands there twice
reads() {
    printf '#include "%s"\n' "$2" "$2" > "$work/alone.c"
    "${@:3}" -Wall -Wextra -Wshadow -pedantic -Werror -fsyntax-only "-I$1" "$work/alone.c" 2> "$work/err"
}

# each header alone, in each language of each compiler that is here; a size that is another one is seen in each of them,
# and a word of C alone in C++
c_languages() {
    local header line fresh=$work/headers
    mkdir -p "$fresh"
    while read -r line; do
        for header in psci.h psci_ctl.h psci_port.h psci_guest.h psci_record.h psci_heap.h psci_beside.h; do
            # shellcheck disable=SC2086
            if reads include "$header" $line; then pass; else
                fail "$header by $line"
                head -n 5 "$work/err"
            fi
        done
        cp include/*.h "$fresh"
        sed -i 's/(psci_frame, 54)/(psci_frame, 55)/' "$fresh/psci.h"
        # shellcheck disable=SC2086
        if reads "$fresh" psci.h $line; then fail "$line takes a frame of 55 bytes"; else pass; fi
        sed 's/PSCI_SIZE_IS(psci_place, 16)/_Static_assert(sizeof(struct psci_place) == 16, "a place")/' \
            include/psci.h > "$fresh/psci.h"
        # shellcheck disable=SC2086
        case $line in *c++*) if reads "$fresh" psci.h $line; then fail "$line takes _Static_assert"; else pass; fi ;; esac
    done < <(languages)
}

# the numbers, prototypes and structs of the headers are those of the crate
c_header() {
    has_python "tests/hosts/header" || return
    if tests/hosts/header > "$work/out"; then pass; else
        fail "the headers say other than crates/psci_ffi"
        head -n 20 "$work/out"
        return
    fi
    c_languages
    unlike psci.h 's/BAD_BOOT = 6/BAD_BOOT = 7/; s/BAD_LIMIT = 7/BAD_LIMIT = 6/' \
        's/CAUSE_WAKE = 2, PSCI_CAUSE_RESET = 3/CAUSE_WAKE = 3, PSCI_CAUSE_RESET = 2/' 's/PSCI_STOP = 1/PSCI_STOP = 2/' \
        's/STATUS_OFF = 1, PSCI_STATUS_PENDING = 2/STATUS_OFF = 2, PSCI_STATUS_PENDING = 1/' 's/LIBRARY 0x010000/LIBRARY 0x010001/' \
        's/life, uint32_t number,/number, uint32_t life,/' 's/uint64_t x1, uint64_t x2/uint64_t x2, uint64_t x1/' \
        's/uint32_t level, uint16_t index/uint16_t index, uint32_t level/' 's/uint8_t kind; /uint16_t kind; /' \
        's/uint16_t core, uint64_t x0, struct psci_stop/uint64_t x0, uint16_t core, struct psci_stop/' \
        's/^uint32_t psci_life/uint16_t psci_life/' 's/frame, 54/frame, 55/' '/uint32_t starts;/{h;d};/uint32_t lives;/G'
    unlike psci_ctl.h 's/CTL_OFF = 3/CTL_OFF = 4/; s/CTL_RESTART = 4/CTL_RESTART = 3/' \
        's/life, number, cause;/number, life, cause;/' 's/STANDBY = 1, PSCI_CTL_RETENTION = 2/STANDBY = 2, PSCI_CTL_RETENTION = 1/' \
        's/NOT_A_MESSAGE = 42/NOT_A_MESSAGE = 41/' 's/uint16_t core, uint32_t halted/uint32_t halted, uint16_t core/' \
        's/domains\[4\]/domains[3]/' 's/NO_PLACE = PSCI_NO_FIRMWARE/NO_PLACE = PSCI_NO_CORE/' 's/SAVED_SUM = 52/SAVED_SUM = 53/' \
        's/const uint64_t \*words/uint64_t *words/'
    unlike psci_port.h 's/PORT_ARMED = 4/PORT_ARMED = 5/; s/PORT_WOKEN = 5/PORT_WOKEN = 4/' 's/OUT_OF_ORDER = 49/OUT_OF_ORDER = 48/' \
        's/TAKES_UP = 0/TAKES_UP = 1/; s/PORT_TELLS = 1/PORT_TELLS = 0/' 's/SUSPENDED = 1/SUSPENDED = 2/; s/ENDING = 2/ENDING = 1/' \
        's/PORT_LEAVES = 0/PORT_LEAVES = 3/; s/PORT_STANDS = 3/PORT_STANDS = 0/' 's/CONTROL_WRITE = 1/CONTROL_WRITE = 3/' \
        's/CONTROL_OFF = 1/CONTROL_OFF = 3/' 's/CONTROL_WAITS = 1/CONTROL_WAITS = 2/' '/uint32_t used;/{h;d};/uint32_t told;/G' \
        's/PORT_SENT = 1/PORT_SENT = 2/; s/PORT_AGAIN = 2/PORT_AGAIN = 1/' 's/port_sent, 12/port_sent, 16/' \
        's/port_door, 20/port_door, 24/' 's/uint16_t core, uint32_t word/uint32_t word, uint16_t core/' \
        's/psci_port_rises(struct psci_port_core \*, bool/psci_port_rises(struct psci_port_core *, uint32_t/'
    unlike psci_guest.h 's/TURNED = 0/TURNED = 1/' 's/turn, 224/turn, 216/' 's/core, uint32_t life/core, uint16_t life/' \
        's/struct psci_answer caller;/struct psci_ctl_start caller;/' '/psci_guest_wake/d' 's/^uint16_t psci_guest_nodes/uint32_t psci_guest_nodes/'
    unlike psci_record.h 's/LINE = 256/LINE = 255/' 's/line, 260/line, 264/' 's/uint32_t number, uint32_t what,/uint32_t what, uint32_t number,/' \
        's/uint64_t address, uint64_t x0,/uint64_t x0, uint64_t address,/' 's/int32_t code/uint32_t code/' '/bool is_mpidr;/{h;d};/uint64_t word;/G' \
        's/const struct psci_port_orders \*, struct psci_answer/struct psci_answer *, const struct psci_port_orders/'
}

# the stored scripts that have no fault
faultless() {
    local file
    for file in "$stored"/*/*.psci; do
        [ -f "${file%.psci}.status" ] || echo "$file"
    done
}

# answered FILE WORD..: these words print the answers of this script
answered() {
    local file=$1
    shift
    if "$@" > "$work/out" && cmp -s "${file%.psci}.out" "$work/out"; then pass; else
        fail "$*"
        diff "${file%.psci}.out" "$work/out" | head -n 5
    fi
}

# read_as_by_the_model FILE: what every reader says after each event, by the model
read_as_by_the_model() {
    has_python "the readers on $1" || return
    tests/hosts/read-by-model "$1" > "$work/wanted"
    if cmp -s "$work/wanted" "$work/read"; then pass; else
        fail "the readers on $1"
        diff "$work/wanted" "$work/read" | head -n 5
    fi
}

# told NAME: this host tells what stands beside it
told() {
    if timeout "$patience" "$work/$1" > "$work/out" && cmp -s "hosts/$1.out" "$work/out"; then pass; else
        fail "hosts/$1.c"
        diff "hosts/$1.out" "$work/out" | head -n 5
    fi
}

# unheeded NAME EDIT..: a port that leaves a rule out, by this edit of a host, is seen by what it tells
unheeded() {
    local name=$1 edit
    shift
    for edit in "$@"; do
        sed "$edit" "hosts/$name.c" > "$work/unheeded.c"
        if cmp -s "hosts/$name.c" "$work/unheeded.c" ||
            ! cc -std=c11 -O2 -pthread -w -Iinclude -Ihosts -o "$work/unheeded" "$work/unheeded.c" \
                hosts/machine.c hosts/pool.c "$archive" > "$work/err" 2>&1; then
            fail "hosts/$name.c has no such rule: $edit"
        elif timeout 60 "$work/unheeded" > "$work/out" 2> "$work/err" &&
            cmp -s "hosts/$name.out" "$work/out"; then
            fail "hosts/$name.c tells the same without a rule: $edit"
        else
            pass
        fi
    done
}

# a drawn run by the calls of psci_port.h beside the plain ones; and each host that does one of these wrong is told
c_sides() {
    local edit flags=(-std=gnu11 -O2 -Wall -Wextra -Werror -Iinclude -Ihosts) seed
    has_cc "the sides of a port in C" || return
    cc "${flags[@]}" -o "$work/sides" tests/hosts/programs/sides.c hosts/pool.c "$archive" 2> "$work/err" ||
        { fail tests/hosts/programs/sides.c; head -n 20 "$work/err"; return; }
    for seed in 1 2 3; do
        # each kind of step came
        if timeout "$patience" "$work/sides" "$seed" 100000 > "$work/out" && ! grep -q ' 0$' "$work/out"; then pass; else
            fail "tests/hosts/programs/sides.c by $seed"
            tail -n 3 "$work/out"
        fi
    done
    for edit in 's/x0, x1, x2, x3, &orders);$/x0 ^ WIDE, x1, x2, x3, \&orders);/' 's/hold(psci_control_stands(&control, core, it->word)/hold(psci_control_stands(\&control, core, it->word + 1)/' \
        's/cores\[core\].door.start = due.start;/;/' 's/^        begin_life();$//' 's/look(&it->side, &it->door, it->wakes)/look(\&it->side, \&it->door, false)/' \
        's/psci_control_waited(&control, core,/psci_control_waited(\&control, core ^ 1,/' 's/psci_port_rises(side, started)/psci_port_rises(side, false)/' \
        's/psci_control_reset(&control, core, &orders);/psci_control_wake(\&control, core, \&orders);/' \
        's/number, &last\[number\], &message);/number, \&last[0], \&message);/' \
        's/psci_control_starts(&control, core) ==/psci_control_starts(\&control, 0) ==/' 's/^    wake(core);$/;/'; do
        sed "$edit" tests/hosts/programs/sides.c > "$work/unheeded.c"
        if cmp -s tests/hosts/programs/sides.c "$work/unheeded.c" ||
            ! cc "${flags[@]}" -w -o "$work/unheeded" "$work/unheeded.c" hosts/pool.c "$archive" 2> "$work/err"; then
            fail "tests/hosts/programs/sides.c has no such line: $edit"
        elif timeout "$patience" "$work/unheeded" 1 100000 > "$work/out"; then
            fail "tests/hosts/programs/sides.c is not seen to be wrong by $edit"
        else
            pass
        fi
    done
}

# the line of each event of a record; and each line that C gives otherwise is told
c_lines() {
    local edit
    has_cc "the lines of a record" || return
    build_c lines tests/hosts/programs/lines.c || return
    tested "$work/lines"
    "$work/lines" 1 20000 > "$work/drawn"
    if tests/hosts/lines-read < "$work/drawn" | grep -q "^20000 lines "; then pass; else fail "tests/hosts/lines-read"; fi
    for edit in 's/^deliver 00 /deliver  /' 's/^take 00 /take  /' '/ -> /s/started [0-9]*$/started 1/'; do
        if sed "$edit" "$work/drawn" | tests/hosts/lines-read > "$work/out" 2>&1; then fail "tests/hosts/lines-read, $edit"; else pass; fi
    done
    for edit in 's/{.is_mpidr = true, .word = 0x300}/{.word = 0x300}/' 's/&own, 0xc4000003, 0x300,/\&own, 0xc4000003, 0x301,/' \
        's/what = PSCI_STOP,/what = PSCI_RESUME,/' 's/0x40201000, 7, 0x3c9/7, 0x40201000, 0x3c9/' 's/start, PSCI_CTL_START, &ack/start, PSCI_CTL_START, \&none/' \
        's/ack.bytes, PSCI_OLD/ack.bytes, PSCI_USED/' 's/PSCI_CTL_START, 2);/PSCI_CTL_START, 1);/' 's/{.next = PSCI_PORT_LEAVES, .x0 = ~1ull/{.next = PSCI_PORT_LEAVES, .x0 = 1ull/'; do
        sed "$edit" tests/hosts/programs/lines.c > "$work/otherwise.c"
        if cmp -s tests/hosts/programs/lines.c "$work/otherwise.c" || ! build_c otherwise "$work/otherwise.c"; then
            fail "tests/hosts/programs/lines.c has no such line: $edit"
        elif "$work/otherwise" > "$work/out"; then
            fail "tests/hosts/programs/lines.c is not seen to be wrong by $edit"
        else
            pass
        fi
    done
}

# the rules of a port, each tried and each left out
c_rules() {
    local name
    if tests/hosts/tried > "$work/out"; then pass; else
        fail "hosts/tried.txt"
        cat "$work/out"
    fi
    sed 's/faults.edits no-gate/faults.edits no-fence/' hosts/tried.txt > "$work/tried"
    if tests/hosts/tried "$work/tried" > "$work/out"; then fail "tests/hosts/tried lets through a fault that is not there"; else pass; fi
    has_cc "the rules of a port" || return
    for name in rules resets link lock power; do
        build_c "$name" "hosts/$name.c" hosts/machine.c || return
        told "$name"
    done
    unheeded rules 's/<= 0xc400001f/<= 0xc400000f/' 's/|| word == 0x80000001;/;/' \
        's/features || standby ||/features ||/' 's/ && said.code == 0)/)/' \
        's/x0 == SUSPEND && what == PSCI_STOP/false/' \
        's/start.cause == PSCI_CAUSE_BOOT ? device_tree : said.context/said.context/' \
        's/|| stands\[message.core\] == message.number/|| stands[message.core] != 0/' \
        's/ || message.number != psci_ctl_starts(&controller, message.core)//' \
        's/^    if (pending)$/    if (false)/' '/a later try/d'
    unheeded resets '/^        open_anew(&two_by_two);$/d' 's/open_anew(&two_by_two);/cold_reset(\&two_by_two);/' \
        's/^    if (cleans)$/    if (false)/' 's/^    if (!invalidates)$/    if (true)/' \
        's/box\[0\].some = kept;/box[0].some = true;/' 's/if (is_waited_for)/if (false)/'
    unheeded boot 's/return word & 0x40000000 ?.*/return (uint64_t)(int64_t)code;/'
    unheeded link 's/if (round % 4 == 0)/if (false)/; s/has_timer \&\& round/false \&\& round/' \
        's/^    post();$//' 's/done.ack.some)/false)/'
    unheeded lock 's/^    while (atomic_flag_test_and_set_explicit.*$/    while (0)/'
    unheeded stop 's/|| atomic_load(&stopped) == number;/|| atomic_load(\&stopped) != 0;/' \
        's/^        while (waits \&\& !may_deliver(mailbox))$/        while (0)/'
}

# firmware and power controller in C on each script, with what every reader says, also where the firmware
# is made anew for each life; the power controller alone, beside what the program's firmware said; and
# what the other hosts tell
c_hosts() {
    local file name rest=" exec 0x40000000-0x40100000 boot 0x40000000 starts 9 lives 3"
    has_cc "the hosts in C" && stored_files || return
    for name in ctl_loop boot stop size; do
        build_c "$name" "hosts/$name.c" || return
    done
    build_c loop hosts/loop.c hosts/player.c || return
    for file in $(faultless); do
        answered "$file" "$work/loop" "$file" "$work/read"
        read_as_by_the_model "$file"
        answered "$file" "$work/loop" "$file" "$work/read-anew" anew
        if cmp -s "$work/read" "$work/read-anew"; then pass; else
            fail "the readers on $file, where the firmware is made anew for each life"
        fi
        answered "$file" "$work/ctl_loop" "$file" "${file%.psci}.out"
        answered "$file" "$work/ctl_loop" "$file" "${file%.psci}.out" saved
    done
    # a power controller that is made anew, and not loaded, is told from the one that was there
    sed 's/psci_ctl_load(&place, words, many) != 0/false/' hosts/ctl_loop.c > "$work/unloaded.c"
    file=examples/start-limit.psci
    if ! cmp -s hosts/ctl_loop.c "$work/unloaded.c" && build_c unloaded "$work/unloaded.c" &&
        ! "$work/unloaded" "$file" "${file%.psci}.out" saved 2> "$work/err" | cmp -s "${file%.psci}.out" -
    then pass; else
        fail "hosts/ctl_loop.c does not see a power controller that is not loaded"
    fi
    if "$work/size" "1 exec 0x0-0x8 boot 0x0 starts 1 lives 1" "((1 1) (16))$rest" "(16 16)$rest" \
        > "$work/out" 2>&1
    then pass; else
        fail "hosts/size.c"
        head -n 5 "$work/out"
    fi
    told boot
    told stop
}

# The machines of examples/boards and faulty descriptions by the library, and that wrong hosts are seen:
# calls in the board's words, another boot core, states and MPIDRs that are not the machine's.
c_machines() {
    local edit
    has_cc "machines in C" && has_python "machines in C" || return
    build_c named hosts/named.c hosts/player.c hosts/words.c || return
    if tests/hosts/machine-library "$work/named" "$work" > "$work/out" 2>&1; then pass; else
        fail "tests/hosts/machine-library"
        head -n 5 "$work/out"
    fi
    for edit in 's/psci_open_machine(&place, &words.board, .*;/psci_open_board(\&place, \&words.board);/' \
        's/&words.machine, words.boot)/\&words.machine, words.machine.mpidrs[0])/' \
        's/psci_mpidr_of(&place, core))/(uint64_t)core)/' 's/asked->states\[level\]/asked->states[0]/'; do
        sed "$edit" hosts/named.c > "$work/unheeded.c"
        if ! cc -std=c11 -O2 -w -Iinclude -Ihosts -o "$work/unheeded" "$work/unheeded.c" hosts/player.c \
            hosts/words.c hosts/pool.c "$archive" > "$work/err" 2>&1; then
            fail "hosts/named.c by $edit"
        elif tests/hosts/machine-library "$work/unheeded" "$work" > "$work/out" 2>&1; then
            fail "hosts/named.c is not seen to be wrong by $edit"
        else
            pass
        fi
    done
}

# the same calls and scripts over the archives for aarch64, by an emulator
c_aarch64() {
    local tool file name
    for tool in aarch64-linux-gnu-gcc qemu-aarch64-static; do
        command -v "$tool" > /dev/null || { skip "the C library on aarch64" "$tool"; return; }
    done
    stored_files || return
    for file in "$plain" "$aligned"; do
        for name in tests/hosts/programs/library tests/hosts/programs/controller "hosts/loop hosts/player"; do
            # shellcheck disable=SC2086
            aarch64-linux-gnu-gcc -std=c11 -O2 -static -pthread -Wall -Wextra -Werror -Iinclude -Ihosts \
                -o "$work/$(basename "${name%% *}")-aarch64" ${name// /.c }.c hosts/pool.c "$file" \
                > "$work/err" 2>&1 || { fail "$name over $file"; head -n 20 "$work/err"; return; }
        done
        tested qemu-aarch64-static "$work/library-aarch64"
        tested qemu-aarch64-static "$work/controller-aarch64"
        for name in $(faultless); do
            answered "$name" qemu-aarch64-static "$work/loop-aarch64" "$name"
        done
    done
}
