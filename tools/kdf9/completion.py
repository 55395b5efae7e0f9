"""The completions for bash, zsh and fish, made of the tables: names of commands and tools, options, jobs, and the slots that a job has."""
import shlex
from typing import Dict, List

from kdf9.about import OPTIONS
from kdf9.entries import FOLDER, JOB, SLOT, Entry, entries

HEAD = "Completes the commands, the tools and the options of kdf9, and jobs, slots, statements and folders. Written by tools/manual."

# How the word after an option is written that is a reference or a part of a deck.
LABEL = "STATEMENT"

# The slots of a job, or all four where no file with a job is named.
SLOTS_OF_FILE = "sed -n 's/^SLOT \\([0-3]\\)$/\\1/p'"

# The references and parts of the deck of a slot, or of the first one, as steps names them. A file with a job comes after it.
LABELS_OF_FILE = """awk -v "slot=$slot" '
    /^SLOT / { n = $2 }
    d && /^ENDDECK$/ { exit }
    d { t = t $0 }
    /^DECK$/ && (slot == "" || n == slot) { d = 1 }
    END {
        gsub(/\\([^)]*\\)/, "", t); gsub(/ /, "", t); m = split(t, s, ";")
        for (i = 1; i <= m; i++)
            if (s[i] ~ /^PROGRAM/) o = 1
            else if (s[i] ~ /^P[0-9]+(V[0-9]+)?$/) { p = s[i]; sub(/V.*/, "", p); print p }
            else if (o && s[i] ~ /^[0-9]+$/) print s[i] p
    }'"""

BASH = """_kdf9_jobs() {
    compgen -d -- "$1"
    compgen -f -X '!*.job' -- "$1" || compgen -f -- "$1"
}

_kdf9_slots() {
    local slots=
    [ ! -f "$1" ] || slots=$(SLOTS "$1")
    echo ${slots:-0 1 2 3}
}

# The statements of the deck of a slot in a file with a job.
_kdf9_labels() {
    local slot=
    case $2 in [0-3]) slot=$2 ;; esac
    [ ! -f "$1" ] || LABELS "$1"
}

# What stands in a place: a job, a slot, a folder, or one of some words.
_kdf9_place() {
    local word=${COMP_WORDS[COMP_CWORD]}
    case $1 in
        job) compopt -o filenames 2> /dev/null; mapfile -t COMPREPLY < <(_kdf9_jobs "$word") ;;
        folder) compopt -o filenames 2> /dev/null; mapfile -t COMPREPLY < <(compgen -d -- "$word") ;;
        label) mapfile -t COMPREPLY < <(compgen -W "$(_kdf9_labels "${COMP_WORDS[2]}" "${COMP_WORDS[3]}")" -- "$word") ;;
        slot) mapfile -t COMPREPLY < <(compgen -W "$(_kdf9_slots "${COMP_WORDS[2]}")" -- "$word") ;;
        *) mapfile -t COMPREPLY < <(compgen -W "$1" -- "$word") ;;
    esac
}

_kdf9() {
    local places=() options='' with_word='' at place=0
    COMPREPLY=()
    case ${COMP_WORDS[1]} in
NAMES
    esac
    if [ "$COMP_CWORD" = 1 ]; then
        _kdf9_place 'FIRST'
        return
    fi
    for ((at = 2; at < COMP_CWORD; at++)); do
        case " $with_word < > " in *" ${COMP_WORDS[at]} "*) ((at++)); continue ;; esac
        [[ ${COMP_WORDS[at]} = -?* ]] || ((place++))
    done
    if [ "$at" -gt "$COMP_CWORD" ]; then
        case ${COMP_WORDS[COMP_CWORD - 1]} in '<' | '>') _kdf9_place job ;; WITH_LABEL) _kdf9_place label ;; esac
    elif [[ ${COMP_WORDS[COMP_CWORD]} = -* ]]; then
        _kdf9_place "$options"
    else
        _kdf9_place "${places[place]}"
    fi
}

complete -F _kdf9 kdf9
"""

ZSH = """_kdf9_slots() {
    local -a slots
    [[ ! -f $words[2] ]] || slots=(${(f)"$(SLOTS $words[2])"})
    (( $#slots )) || slots=(0 1 2 3)
    compadd -a slots
}

_kdf9_labels() {
    local slot= word=$words[3]
    [[ $word != [0-3] ]] || slot=$word
    [[ ! -f $words[2] ]] || compadd -- ${(f)"$(LABELS $words[2])"}
}

_kdf9() {
    local curcontext=$curcontext state line
    local -a names
    names=(
FIRST
    )
    _arguments -C '1:command:->name' '*::argument:->argument' && return
    case $state in
        name) _describe 'command' names ;;
        argument)
            case $words[1] in
NAMES
            esac ;;
    esac
}

_kdf9 "$@"
"""

FISH = """function __kdf9_slots
    set -l words (commandline -opc)
    set -l slots
    test -f "$words[3]"; and set slots (SLOTS "$words[3]")
    test (count $slots) -gt 0; or set slots 0 1 2 3
    printf '%s\\n' $slots
end

function __kdf9_labels
    set -l words (commandline -opc)
    set -l slot
    string match -qr -- '^[0-3]$' "$words[4]"; and set slot $words[4]
    test -f "$words[3]"; and LABELS "$words[3]"
end

# Whether no name stands there yet, and whether the name that does is this one.
function __kdf9_first
    test (count (commandline -opc)) -eq 1
end

function __kdf9_is
    set -l words (commandline -opc)
    test (count $words) -gt 1; and test "$words[2]" = $argv[1]
end

# Whether it is this name, with so many places filled after it.
function __kdf9_at
    __kdf9_is $argv[1]; or return 1
    set -l places 0
    set -l is_of_option no
    for word in (commandline -opc)[3..-1]
        if test $is_of_option = yes
            set is_of_option no
        else if contains -- $word WITH_WORD
            set is_of_option yes
        else if not string match -q -- '-?*' $word
            set places (math $places + 1)
        end
    end
    test $places -eq $argv[2]
end

complete -c kdf9 -f
"""


def bash() -> str:
    """The completion for bash."""
    lines = []
    for it in entries():
        places = " ".join(shlex.quote(place) for place in it.places)
        with_word = " ".join(option.written.split()[0] for option in it.options if option.has_word)
        options = " ".join(option.written.split()[0] for option in it.options)
        lines.append(f"        {it.tool.name}) places=({places}) options='{options}' with_word='{with_word}' ;;")
    names = " ".join([*(it.tool.name for it in entries()), *OPTIONS])
    return f"# {HEAD}\n" + filled(BASH, {"NAMES": "\n".join(lines), "FIRST": names, "WITH_LABEL": " | ".join(options_with_label())})


def options_with_label() -> List[str]:
    """The options after which a reference or a part stands."""
    written = [option.written.split() for it in entries() for option in it.options if option.has_word]
    return [name for name, *words in written if words[:1] == [LABEL]]


def zsh() -> str:
    """The completion for zsh."""
    said = {**{it.tool.name: it.tool.does for it in entries()}, **OPTIONS}
    first = "\n".join(f"        {quoted(f'{name}:{does}')}" for name, does in said.items())
    return f"#compdef kdf9\n# {HEAD}\n" + filled(ZSH, {"FIRST": first, "NAMES": "\n".join(line_of_zsh(it) for it in entries())})


def line_of_zsh(entry: Entry) -> str:
    """What may stand after a name, in the words of zsh."""
    done = {JOB: '_files -g "*.job"', SLOT: "_kdf9_slots", FOLDER: "_files -/", "": " "}
    parts = [f"{at}:{place if place in done else 'word'}:{done.get(place, f'({place})')}" for at, place in enumerate(entry.places, 1)]
    for option in entry.options:
        name, _, word = option.written.partition(" ")
        does = option.does.translate({ord("["): "(", ord("]"): ")", ord(":"): ","})
        parts.append(f"{name}[{does}]" + (f":{word}:{'_kdf9_labels' if word == LABEL else ' '}" if word else ""))
    return f"                {entry.tool.name}) _arguments {' '.join(map(quoted, parts))} ;;"


def fish() -> str:
    """The completion for fish."""
    found = entries()
    said = {**{it.tool.name: it.tool.does for it in found}, **OPTIONS}
    lines = [f"complete -c kdf9 -n __kdf9_first -a {name} -d {quoted(does)}" for name, does in said.items()]
    lines += [line for it in found for line in lines_of_fish(it)]
    with_word = {option.written.split()[0]: None for it in found for option in it.options if option.has_word}
    return f"# {HEAD}\n" + filled(FISH, {"WITH_WORD": " ".join(with_word)}) + "".join(f"{line}\n" for line in lines)


def lines_of_fish(entry: Entry) -> List[str]:
    """What may stand after a name, in the words of fish."""
    name, lines = entry.tool.name, []
    done = {JOB: "(__fish_complete_suffix .job)", SLOT: "(__kdf9_slots)", FOLDER: "(__fish_complete_directories)"}
    for at, place in enumerate(entry.places):
        if place:
            lines.append(f"complete -c kdf9 -n '__kdf9_at {name} {at}' -k -a {quoted(done.get(place, place))}")
    for option in entry.options:
        long = option.written.split()[0][2:]
        labels = " -a '(__kdf9_labels)'" if option.written.endswith(f" {LABEL}") else ""
        lines.append(f"complete -c kdf9 -n '__kdf9_is {name}' -l {long}{' -x' if option.has_word else ''}{labels} -d {quoted(option.does)}")
    return lines


def quoted(text: str) -> str:
    """A text in single quotes, as all three shells read it; an apostrophe becomes the one of print, so that no quote is escaped in three ways."""
    return "'" + text.replace("'", "\u2019") + "'"


def filled(text: str, parts: Dict[str, str]) -> str:
    """A script with these parts in their places."""
    for name, part in {"SLOTS": SLOTS_OF_FILE, "LABELS": LABELS_OF_FILE, **parts}.items():
        text = text.replace(name, part)
    return text
