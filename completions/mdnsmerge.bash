# bash completion for mdnsmerge and mdnswhy: the commands, their options, and captures. The help of a program lists what it has;
# where it can't be asked, files are completed.

# Answers with the commands that begin with the word. Where there are several, each stands with what it answers.
_mdnsmerge_commands() { # program word
    local line
    while read -r line; do
        [[ $line == "$2"* ]] && COMPREPLY+=("$line")
    done < <(command "$1" --help 2> /dev/null | sed -n '/^  [a-z]/p')
    if ((${#COMPREPLY[@]} == 1)); then
        COMPREPLY=("${COMPREPLY[0]%% *}")
    fi
}

# Prints the options of a program, or of its command, each on a line with what it takes.
_mdnsmerge_options() { # program command...
    command "$@" --help 2> /dev/null | sed -nE 's/^ +(-[a-zA-Z], )?(--[a-z-]+( <[A-Z]+>)?)  .*/\2/p'
}

_mdnsmerge() { # program
    local word=${COMP_WORDS[COMP_CWORD]} before=${COMP_WORDS[COMP_CWORD - 1]} options i
    COMPREPLY=()
    [[ $COMP_CWORD -gt 1 && ${COMP_WORDS[1]} == -* ]] && return
    options=$(_mdnsmerge_options "$1" "${COMP_WORDS[@]:1:COMP_CWORD > 1}")
    [[ -n $options ]] || return
    if ((COMP_CWORD == 1)); then
        compopt +o default
        if [[ $word == -* ]]; then
            mapfile -t COMPREPLY < <(compgen -W "$options" -- "$word")
        else
            _mdnsmerge_commands "$1" "$word"
        fi
        return
    fi
    # Behind `--` all words are names of files.
    for ((i = 2; i < COMP_CWORD; i++)); do
        [[ ${COMP_WORDS[i]} == -- ]] && options=
    done
    if [[ -n $options && ($before == = || $word == = || $'\n'$options == *$'\n'"$before <"*) ]]; then
        compopt +o default
    elif [[ -n $options && $word == -* ]]; then
        mapfile -t COMPREPLY < <(compgen -W "$options" -- "$word")
    else
        compopt -o filenames
        mapfile -t COMPREPLY < <(compgen -d -- "$word"; compgen -f -X '!*.pcap' -- "$word")
    fi
}

complete -o default -F _mdnsmerge mdnsmerge mdnswhy
