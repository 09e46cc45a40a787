# What the program says of itself and of a faulty command line, sourced by ./test after
# tests/program/program.sh: each text of tests/program/texts.txt whole.

texts() {
    local file name wanted
    local -a words
    stored_texts texts || return
    for file in "$work"/texts/*.words; do
        name=${file%.words} wanted=0
        [ ! -f "$name.status" ] || wanted=$(cat "$name.status")
        mapfile -t words < "$file"
        run "${words[@]}" < /dev/null
        if [ "$(cat "$work/got")" = "$wanted" ] && same "$name.out" "$work/out" &&
            same "$name.err" "$work/err"; then pass; else
            fail "the text ${name##*/} (status $(cat "$work/got"), wanted $wanted)"
            cat "$name".[eo]* | diff - <(cat "$work/out" "$work/err") | head -n 5
        fi
    done
}
