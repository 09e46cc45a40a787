# Completion of `psci` and `./psci` for bash, which tools/completions.py writes:
#   source completions/psci.bash

_psci_words() { mapfile -t -O ${#COMPREPLY[@]} COMPREPLY < <(compgen -W "$*" -- "$word"); }
_psci_files() {
    [[ $word == -* ]] && return
    compopt -o filenames 2> /dev/null
    mapfile -t -O ${#COMPREPLY[@]} COMPREPLY < <(compgen -f -- "$word")
}

_psci() {
    local word=${COMP_WORDS[COMP_CWORD]} before=${COMP_WORDS[COMP_CWORD - 1]} command= at
    # bash has --color=auto as three words
    if [[ $word == = ]]; then word=; elif [[ $before == = ]]; then before=${COMP_WORDS[COMP_CWORD - 2]}; fi
    for ((at = 1; at < COMP_CWORD; at++)); do
        [[ ${COMP_WORDS[at]} != --unproved ]] || continue
        case ${command:+$command }${COMP_WORDS[at]} in replay | show | draw | try | plain | storm | threads | compare | prove | 'sweep storm' | 'sweep threads' | 'sweep lists' | 'sweep beside' | 'sweep fuzz' | 'sweep report' | sweep | help) command+=${command:+ }${COMP_WORDS[at]} ;; *) break ;; esac
    done
    COMPREPLY=()
    case "$command $before" in
        "replay --machine" | "show --clock" | "show --machine" | "draw --clock" | "draw --machine" | "plain --machine" | "storm --keep" | "threads --keep" | "compare --machine" | "compare --script" | "compare --profile" | "compare --baseline" | "compare --write-baseline" | "compare --junit" | "sweep storm --out" | "sweep storm --boards" | "sweep storm --program" | "sweep threads --out" | "sweep threads --boards" | "sweep threads --program" | "sweep lists --out" | "sweep lists --profile" | "sweep lists --baseline" | "sweep lists --payload" | "sweep beside --out" | "sweep beside --target" | "sweep fuzz --out" | "sweep fuzz --target" | "sweep fuzz --corpus" | "sweep report --page" | *" <" | *" >") _psci_files; return ;;
        "show --width" | "show --from" | "show --to" | "show --cores" | "draw --from" | "draw --to" | "draw --cores" | "try --port" | "storm --board" | "storm --seed" | "storm --count" | "storm --seeds" | "threads --board" | "threads --seed" | "threads --count" | "compare --bound" | "compare --limit" | "sweep storm --seeds" | "sweep storm --engine-words" | "sweep storm --jobs" | "sweep storm --minutes" | "sweep storm --chunk" | "sweep storm --count" | "sweep storm --board" | "sweep threads --seeds" | "sweep threads --engine-words" | "sweep threads --jobs" | "sweep threads --minutes" | "sweep threads --chunk" | "sweep threads --count" | "sweep threads --board" | "sweep lists --seeds" | "sweep lists --engine-words" | "sweep lists --jobs" | "sweep lists --minutes" | "sweep lists --chunk" | "sweep lists --on" | "sweep lists --command" | "sweep beside --seeds" | "sweep beside --engine-words" | "sweep beside --jobs" | "sweep beside --minutes" | "sweep beside --chunk" | "sweep beside --count" | "sweep fuzz --seeds" | "sweep fuzz --engine-words" | "sweep fuzz --jobs" | "sweep fuzz --minutes" | "sweep fuzz --chunk" | "sweep fuzz --count" | "sweep fuzz --length") return ;;
        "show --color") _psci_words auto always never; return ;;
        "prove --target") _psci_words x86_64 aarch64; return ;;
        "sweep storm --engine" | "sweep threads --engine" | "sweep lists --engine" | "sweep beside --engine" | "sweep fuzz --engine") _psci_words local slurm parallel; return ;;
        "prove prove") _psci_words all lib --help; return ;;
        "sweep sweep") _psci_words storm threads lists beside fuzz report --help; return ;;
        "help help") _psci_words replay show draw try plain storm threads compare sweep prove --help; return ;;
    esac
    case $command in
        "") _psci_words replay show draw try plain storm threads compare prove sweep help --unproved --help --version ;;
        replay) _psci_words --help --machine; _psci_files ;;
        show) _psci_words --help --json --changes --script --trace --vcd --legend --width --color --from --to --cores --clock --machine; _psci_files ;;
        draw) _psci_words --help --page --from --to --cores --clock --machine; _psci_files ;;
        try) _psci_words --help --port; _psci_files ;;
        plain) _psci_words --help --machine; _psci_files ;;
        storm) _psci_words --help --board --seed --count --counts --keep --seeds ;;
        threads) _psci_words --help --board --seed --count --counts --keep ;;
        compare) _psci_words --help --quick --machine --script --profile --declare --tallies --each --times --baseline --write-baseline --tap --junit --bound --limit --whole; _psci_files ;;
        prove) _psci_words --help --target --unproved ;;
        'sweep storm') _psci_words --help --seeds --out --engine --engine-words --jobs --minutes --chunk --count --board --boards --model --program ;;
        'sweep threads') _psci_words --help --seeds --out --engine --engine-words --jobs --minutes --chunk --count --board --boards --model --program ;;
        'sweep lists') _psci_words --help --seeds --out --engine --engine-words --jobs --minutes --chunk --on --command --profile --baseline --down --one-thread --payload ;;
        'sweep beside') _psci_words --help --seeds --out --engine --engine-words --jobs --minutes --chunk --target --count ;;
        'sweep fuzz') _psci_words --help --seeds --out --engine --engine-words --jobs --minutes --chunk --target --count --length --corpus ;;
        'sweep report') _psci_words --help --costs --page; _psci_files ;;
        sweep) _psci_words --help ;;
        help) _psci_words --help ;;
    esac
}

complete -F _psci psci ./psci
