# Completion of tokyo's words for bash: source this file, or put it into
# the folder of bash-completion as `tokyo`.

# Carried out by this version.
_tokyo_commands="pipe serve drill hash tree fixed table --help --version"
_tokyo_of_kind="create inform put out get list optimize --help"

# Words to come: this version answers them with status 1, so they aren't offered. A word goes to one of the lines above, and an
# ending to _tokyo_files, once the program carries it out.
#   of a kind: restore

# What may be named besides files: a star is quoted, as the shell would read it as files.
_tokyo_names=("'*'" +)

# The options of a command.
_tokyo_options() { # KIND COMMAND
    case "$1 $2" in
        "hash create" | "hash optimize" | "tree optimize" | "table create" | "table optimize") echo "-tl" ;;
        "tree create") echo "-cd -tl" ;;
        "hash put" | "fixed put" | "table put") echo "-dk -dc" ;;
        "tree put") echo "-dk -dc -dd" ;;
        "hash list" | "tree list" | "fixed list" | "table list") echo "-m -pv" ;;
        "table setindex") echo "-it" ;;
        "table search") echo "-ord -m -sk -pv -rm" ;;
    esac
}

# Files whose names end so.
_tokyo_files() { # ENDINGS WORD
    compgen -f -X "!*.tc[$1]" -- "$2"
}

# What may stand in the place of a word behind `hash`, `tree`, `fixed` or `table` and a command.
_tokyo_behind_command() { # KIND COMMAND WORD
    local at named=0 ending=${1:0:1}
    [ "$1" != tree ] || ending=b
    if [ "${COMP_WORDS[COMP_CWORD-1]}" = -it ]; then
        compgen -W "lexical decimal token void" -- "$3"
        return
    fi
    for ((at = 3; at < COMP_CWORD; at++)); do
        case "${COMP_WORDS[at]}" in
            -m | -sk | -it) [ "$named" -gt 0 ] || at=$((at + 1)) ;;
            -ord) [ "$named" -gt 0 ] || at=$((at + 2)) ;;
            -*) [ "$named" -eq 0 ] || named=$((named + 1)) ;;
            *) named=$((named + 1)) ;;
        esac
    done
    if [ "$named" -eq 1 ] && [ "$1" = fixed ] && [[ $2 == @(put|out|get) ]]; then
        compgen -W "min max prev next" -- "$3"
    elif [ "$named" -eq 0 ] && [ "$at" -eq "$COMP_CWORD" ]; then
        if [[ $3 == -* ]]; then
            compgen -W "$(_tokyo_options "$1" "$2")" -- "$3"
        else
            _tokyo_files "$ending" "$3"
        fi
    fi
}

_tokyo() {
    local word=${COMP_WORDS[COMP_CWORD]} command=${COMP_WORDS[1]}
    COMPREPLY=()
    if [ "$COMP_CWORD" -eq 1 ]; then
        mapfile -t COMPREPLY < <(compgen -W "$_tokyo_commands" -- "$word")
    elif [[ $command == @(hash|tree|fixed) ]] && [ "$COMP_CWORD" -eq 2 ]; then
        mapfile -t COMPREPLY < <(compgen -W "$_tokyo_of_kind" -- "$word")
    elif [ "$command $COMP_CWORD" = "table 2" ]; then
        mapfile -t COMPREPLY < <(compgen -W "$_tokyo_of_kind setindex search" -- "$word")
    elif [[ $command == @(hash|tree|fixed|table) ]]; then
        mapfile -t COMPREPLY < <(_tokyo_behind_command "$command" "${COMP_WORDS[2]}" "$word")
    elif [ "$command" = serve ] && [[ $word == -* ]]; then
        mapfile -t COMPREPLY < <(compgen -W "-host -port -ulog -sid -mhost -mport -lim -turns" -- "$word")
    elif [ "$command" = serve ] || [ "$command $COMP_CWORD" = "pipe 2" ] || [ "$command $COMP_CWORD" = "drill 4" ]; then
        mapfile -t COMPREPLY < <(_tokyo_files hbft "$word")
        [ -n "$word" ] || COMPREPLY+=("${_tokyo_names[@]}")
    fi
}

complete -F _tokyo tokyo
