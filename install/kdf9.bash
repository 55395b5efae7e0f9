# Completes the commands, the tools and the options of kdf9, and jobs, slots, statements and folders. Written by tools/manual.
_kdf9_jobs() {
    compgen -d -- "$1"
    compgen -f -X '!*.job' -- "$1" || compgen -f -- "$1"
}

_kdf9_slots() {
    local slots=
    [ ! -f "$1" ] || slots=$(sed -n 's/^SLOT \([0-3]\)$/\1/p' "$1")
    echo ${slots:-0 1 2 3}
}

# The statements of the deck of a slot in a file with a job.
_kdf9_labels() {
    local slot=
    case $2 in [0-3]) slot=$2 ;; esac
    [ ! -f "$1" ] || awk -v "slot=$slot" '
    /^SLOT / { n = $2 }
    d && /^ENDDECK$/ { exit }
    d { t = t $0 }
    /^DECK$/ && (slot == "" || n == slot) { d = 1 }
    END {
        gsub(/\([^)]*\)/, "", t); gsub(/ /, "", t); m = split(t, s, ";")
        for (i = 1; i <= m; i++)
            if (s[i] ~ /^PROGRAM/) o = 1
            else if (s[i] ~ /^P[0-9]+(V[0-9]+)?$/) { p = s[i]; sub(/V.*/, "", p); print p }
            else if (o && s[i] ~ /^[0-9]+$/) print s[i] p
    }' "$1"
}

# What stands in a place: a job, a slot, a folder, or one of some words.
_kdf9_place() {
    local word=${COMP_WORDS[COMP_CWORD]}
    case $1 in
        job) compopt -o filenames 2> /dev/null; mapfile -t COMPREPLY < <(_kdf9_jobs "$word") ;;
        folder) compopt -o filenames 2> /dev/null; mapfile -t COMPREPLY < <(compgen -d -- "$word") ;;
        label) mapfile -t COMPREPLY < <(compgen -W "$(_kdf9_labels "${COMP_WORDS[2]}" "${COMP_WORDS[3]}")" -- "$word") ;;
        slot) mapfile -t COMPREPLY < <(compgen -W "$(_kdf9_slots "${COMP_WORDS[2]}")" -- "$word") ;;
        *) mapfile -t COMPREPLY < <(compgen -W "$1" -- "$word") ;;
    esac
}

_kdf9() {
    local places=() options='' with_word='' at place=0
    COMPREPLY=()
    case ${COMP_WORDS[1]} in
        run) places=() options='--help' with_word='' ;;
        alone) places=(slot) options='--help' with_word='' ;;
        asm) places=(slot) options='--help' with_word='' ;;
        make) places=('') options='--help' with_word='' ;;
        save) places=() options='--help' with_word='' ;;
        resume) places=() options='--help' with_word='' ;;
        check) places=() options='--help' with_word='' ;;
        watch) places=(slot '') options='--help' with_word='' ;;
        explain) places=(job 'run resume check') options='--help --strict' with_word='' ;;
        steps) places=(job slot '' '') options='--help --json --run --at --watch' with_word='--at --watch' ;;
        listing) places=(job slot) options='--help --json' with_word='' ;;
        schedule) places=(job '') options='--help --after --every --speed --speeds' with_word='--after --every --speed --speeds' ;;
        same) places=(job job) options='--help --json' with_word='' ;;
        explore) places=(job) options='--help --calls --runs --swap --mode --out' with_word='--calls --runs --out' ;;
        stats) places=(job job) options='--help --json --csv' with_word='' ;;
        study) places=('') options='--help --out --plot --part --join --dask --job' with_word='--out --part --join --dask --job' ;;
        mark) places=('' '') options='--help --csv --json --html --try --hand-out --seeds' with_word='--hand-out --seeds' ;;
        quiz) places=('nest held idle deadlock journal') options='--help --seed --answers --json --html' with_word='--seed' ;;
        picture) places=() options='--help --text' with_word='' ;;
        json) places=() options='--help' with_word='' ;;
        report) places=() options='--help' with_word='' ;;
        page) places=() options='--help --course' with_word='--course' ;;
        replay) places=(job) options='--help' with_word='' ;;
        proofs) places=() options='--help' with_word='' ;;
        lsp) places=() options='--help --faults' with_word='--faults' ;;
        dap) places=() options='--help' with_word='' ;;
        lib) places=(folder) options='--help' with_word='' ;;
        clean) places=() options='--help --json --show' with_word='' ;;
        package) places=(folder) options='--help' with_word='' ;;
    esac
    if [ "$COMP_CWORD" = 1 ]; then
        _kdf9_place 'run alone asm make save resume check watch explain steps listing schedule same explore stats study mark quiz picture json report page replay proofs lsp dap lib clean package --help --version --proved'
        return
    fi
    for ((at = 2; at < COMP_CWORD; at++)); do
        case " $with_word < > " in *" ${COMP_WORDS[at]} "*) ((at++)); continue ;; esac
        [[ ${COMP_WORDS[at]} = -?* ]] || ((place++))
    done
    if [ "$at" -gt "$COMP_CWORD" ]; then
        case ${COMP_WORDS[COMP_CWORD - 1]} in '<' | '>') _kdf9_place job ;; --at) _kdf9_place label ;; esac
    elif [[ ${COMP_WORDS[COMP_CWORD]} = -* ]]; then
        _kdf9_place "$options"
    else
        _kdf9_place "${places[place]}"
    fi
}

complete -F _kdf9 kdf9
