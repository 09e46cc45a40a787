# Tests of `psci show`, the completion and the manual page, sourced by ./test: runs in
# words, text for text, and as JSON.

# show WORD..: shows the script on standard input
show() { run show "$@"; }

# the stored texts of tests/program/shown.txt: what is written of a script, in words, in color and as JSON; and
# each text that psci_show has stands in one of them
shown() {
    local name words
    stored_files && stored_texts shown || return
    for name in "$work"/shown/*.words; do
        name=${name%.words}
        words=$(cat "$name.words")
        # shellcheck disable=SC2086
        run ${words% < *} < "$stored/${words#* < }.psci"
        cp "$name.out" "$work/lines"
        expect "${name##*/}: $words" 0
        answers "${name##*/}: $words"
    done
    if has_python tests/program/words-shown; then
        if tests/program/words-shown > "$work/out"; then pass; else
            fail "tests/program/words-shown"
            head -n 20 "$work/out"
        fi
    fi
    shown_colors
    state_colors
    shown_ends
}

# color changes nothing but colors, and comes only where it is always wanted
shown_colors() {
    local when
    for when in auto never; do
        show --color $when < examples/late-acknowledgement.psci
        cp "$work/shown/late-acknowledgement.out" "$work/lines"
        answers "show --color $when"
    done
    show --color always < examples/late-acknowledgement.psci
    sed 's/\x1b\[[0-9]*m//g' "$work/out" > "$work/plain"
    if ! cmp -s "$work/plain" "$work/out"; then pass; else fail "show --color always without a color"; fi
    cp "$work/plain" "$work/out"
    cp "$work/shown/late-acknowledgement.out" "$work/lines"
    answers "show --color always"
}

# the scripts of which the colored texts are stored: together they have every state
colored="suspend/retention-woken-and-reset suspend/one-level-sleeps-and-wakes"

# colors WORD..: which letter has which color in the colored scripts, by a command that shows one
colors() {
    local script
    for script in $colored; do "$@" < "$stored/$script.psci"; done | grep -o $'\x1b\[[0-9]*m[^\x1b]' | cut -c 3- | grep -v '^0m' | sort -u
}

show_in_color() { show --color always; cat "$work/out"; }

# what tools/show writes, of which the folder is given
view_in_color() { show --json; "$1/show" --color always < "$work/out"; }

# the letter of each state has its color, by the program and in a window of ./psci show; two colors that
# are exchanged are found
state_colors() {
    local pair
    printf '%s\n' 32mR 33mg 34mb 34md 34mr 36mP 36mS 90m. | sort > "$work/colors"
    colors show_in_color > "$work/found"
    if cmp -s "$work/colors" "$work/found"; then pass; else fail "the colors of show"; fi
    has_python tools/show || return 0
    colors view_in_color tools > "$work/found"
    if cmp -s "$work/colors" "$work/found"; then pass; else fail "the colors of tools/show"; fi
    for pair in "32 33" "33 34" "34 36" "36 90"; do
        rm -rf "$work/tools"
        cp -r tools "$work/tools"
        # shellcheck disable=SC2086
        set -- $pair
        sed "/^COLORS/,/}/{s/\b$1\b/0/g;s/\b$2\b/$1/g;s/\b0\b/$2/g}" tools/views/lines.py > "$work/tools/views/lines.py"
        colors view_in_color "$work/tools" > "$work/found"
        if ! cmp -s "$work/colors" "$work/found"; then pass; else fail "the colors $pair can be exchanged"; fi
    done
}

# how narrow a line may be, and how a script ends
shown_ends() {
    show --width 40 < examples/three-levels.psci
    cp "$work/out" "$work/lines"
    show --width 7 < examples/three-levels.psci
    answers "show --width 7"
    if has_python shown_answers; then shown_answers; fi
    printf '%s\nenter 0' "$board" > "$work/script"
    show < "$work/script"
    expect "show without a last line feed" 0
    printf '%s\nenter 0\nenter 1 2\n' "$board" > "$work/script"
    show < "$work/script"
    expect "show at a faulty line" 3 "line 3: script fault 2"
    echo "   1  R  0   0   core 0 enters -> enters at 0x0 with context 0x0" > "$work/lines"
    answers "show before a faulty line"
    show < /dev/null
    expect "show of an empty script" 3 "line 1: script fault 1"
}

# ./psci show says how wide the terminal is, if that is known, and asks for colors there; the words come
# first, and elsewhere auto is never
terminal_words() {
    local words wanted
    has_python ./psci || return 0
    cat > "$work/asks" << 'END'
import os, sys
sys.path.insert(0, "tools")
from front import commands, words
if sys.argv[2] != "-":
    os.system(f"stty cols {sys.argv[2]} <&1 2> /dev/null")
with open(sys.argv[1], "w") as file:
    print(*commands.terminal_words(words.show().read(sys.argv[3:])), file=file)
END
    python3 -B "$work/asks" "$work/out" - --color auto --json > /dev/null
    echo "--color=never" > "$work/lines"
    answers "./psci show beside a terminal"
    [ -n "$(type -P script)" ] || { skip "./psci show on a terminal" script; return; }
    while IFS='|' read -r words wanted; do
        TERM=xterm command script -qec "python3 -B $work/asks $work/out $words" /dev/null < /dev/null > /dev/null
        echo "$wanted" > "$work/lines"
        answers "./psci show $words on a terminal"
    done << 'EOF'
97|--width=97 --color=always
97 --json|--width=97 --color=always
97 --width 50|--width=50 --color=always
97 --color auto|--width=97 --color=always
97 --color=never|--width=97 --color=never
0 --json|--color=always
EOF
    TERM=dumb command script -qec "python3 -B $work/asks $work/out 97" /dev/null < /dev/null > /dev/null
    echo "--width=97 --color=never" > "$work/lines"
    answers "./psci show on a dumb terminal"
}

# as JSON each example has its answers, and its lines are objects
shown_answers() {
    local file
    for file in examples/*.psci; do
        show --json < "$file"
        python3 -c 'import json, sys
for line in list(sys.stdin)[1:]:
    it = json.loads(line)
    print(it["number"], it["answer"])' < "$work/out" > "$work/lines"
        cp "${file%.psci}.out" "$work/out"
        expect "show --json < $file" 0
        answers "show --json < $file"
    done
}

# the long options that the help of each command names
options() {
    local name
    for name in replay storm threads show draw try plain compare sweep prove "sweep storm" "sweep report"; do
        # shellcheck disable=SC2086
        ./psci $name --help
    done | grep -oE -- '^  --[a-z-]+' | grep -oE -- '--[a-z-]+' | sort -u
}

# bash, zsh and fish complete commands, options and paths, by what the commands themselves say that they take, and the
# manual page has every option
completed() {
    local option line wanted
    has_python completed || return
    if tools/completions.py --check > "$work/out"; then pass; else fail "$(head -n 1 "$work/out")"; fi
    while IFS='|' read -r line wanted; do
        bash -c '. completions/psci.bash; COMP_WORDS=($1); COMP_CWORD=$((${#COMP_WORDS[@]} - 1))
            _psci; echo "${COMPREPLY[*]}"' bash "$line" > "$work/out"
        echo "$wanted" > "$work/lines"
        answers "completion of $line"
    done << 'EOF'
./psci s|show storm sweep
./psci t|try threads
./psci threads --|--help --board --seed --count --counts --keep
./psci storm --se|--seed --seeds
./psci storm --seed 1 --co|--count --counts
./psci storm --keep LIC|LICENSE
./psci show --color a|auto always
./psci draw --|--help --page --from --to --cores --clock --machine
./psci show --c|--changes --color --cores --clock
./psci show --s|--script
./psci replay LIC|LICENSE
./psci replay --machine examples/boards/rk3399.m|examples/boards/rk3399.machine
./psci draw x --page > LIC|LICENSE
./psci pl|plain
./psci help d|draw
./psci tr|try
./psci c|compare
./psci compare --b|--baseline --bound
./psci compare --q|--quick
./psci replay --|--help --machine
./psci sweep t|threads
./psci sweep storm --en|--engine --engine-words
./psci sweep storm --engine p|parallel
./psci prove l|lib
./psci prove lib --target a|aarch64
./psci prove all l|
./psci show --color = a|auto always
./psci sweep storm --p|--program
./psci sweep storm --k|
./psci sweep --|--help
EOF
    by_fish
    by_zsh
    # (a pipe into `grep -q`, which leaves early, has now and then failed)
    sed 's/\\-/-/g' docs/psci.1 > "$work/manual"
    for option in $(options); do
        if grep -q -- "$option" "$work/manual"; then pass; else fail "$option is not in docs/psci.1"; fi
    done
}

# what fish completes, without what it says of each
by_fish() {
    local line wanted
    [ -n "$(type -P fish)" ] || { skip "completion by fish" fish; return; }
    while IFS='|' read -r line wanted; do
        HOME=$work fish --no-config -c 'source completions/psci.fish; complete -C $argv[1]' "$line" 2> "$work/err" |
            cut -f 1 | LC_ALL=C sort | tr '\n' ' ' > "$work/out"
        printf '%s' "${wanted:+$wanted }" > "$work/lines"
        answers "completion of $line by fish"
    done << 'EOF'
psci s|show storm sweep
psci storm --se|--seed --seeds
psci show --color a|always auto
psci replay LIC|LICENSE
psci replay --machine LIC|LICENSE
psci prove l|lib
psci prove all l|
psci sweep storm --p|--program
psci sweep storm --k|
psci --unproved s|show storm sweep
psci help st|storm
EOF
}

# what zsh completes on a terminal of its own
by_zsh() {
    local line wanted
    [ -n "$(type -P zsh)" ] || { skip "completion by zsh" zsh; return; }
    while IFS='|' read -r line wanted; do
        timeout "$patience" zsh -f tests/program/completed-by-zsh "$line" > "$work/out" 2> "$work/err"
        echo "$wanted" > "$work/lines"
        answers "completion of $line by zsh"
    done << 'EOF'
psci swe|psci sweep 
psci storm --keep LIC|psci storm --keep LICENSE 
psci show --color=ne|psci show --color=never 
psci replay LIC|psci replay LICENSE 
psci draw --pa|psci draw --page 
psci storm --kee|psci storm --keep=
psci sweep storm --mod|psci sweep storm --model 
psci sweep storm --kee|psci sweep storm --kee
psci prove lib --tar|psci prove lib --target=
EOF
}
