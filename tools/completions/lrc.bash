# Completions of lrc's words for bash: `source tools/completions/lrc.bash`. They are read off the program's own help, so they
# are those of the program that is called; the launcher of the repository has some of its own.

# The words of lrc's help that this sed script finds.
_lrc_words() {
    local program=$1 command=$2 script=$3
    "$program" $command --help 2> /dev/null | sed -n "$script"
}

# What an option takes, if the help lists it.
_lrc_values() {
    _lrc_words "$1" "$2" "/^ *$3 </s/.*\[possible values: \(.*\)\]/\1/p" | tr -d ,
}

# The words that the launcher does by itself, if the program is one: its folder is beside it.
_lrc_launched() {
    local path
    path=$(command -v "$1") && [[ -d ${path%/*}/tools/launcher ]] && echo prove test install
}

_lrc() {
    local program=${COMP_WORDS[0]} command=${COMP_WORDS[1]} word=${COMP_WORDS[COMP_CWORD]} before=${COMP_WORDS[COMP_CWORD - 1]}
    local options='s/^ *\(-[a-zA-Z], \)\{0,1\}\(--[a-z-]*\) .*/\2/p' commands='s/^  \([a-z]\{1,\}\)  .*/\1/p' values
    COMPREPLY=()
    if ((COMP_CWORD == 1)); then
        COMPREPLY=($(compgen -W "$(_lrc_words "$program" "" "$commands;$options") $(_lrc_launched "$program")" -- "$word"))
    elif ((COMP_CWORD == 2)) && [[ $command == help ]]; then
        COMPREPLY=($(compgen -W "$(_lrc_words "$program" "" "$commands")" -- "$word"))
    elif [[ $word == -* ]]; then
        COMPREPLY=($(compgen -W "$(_lrc_words "$program" "$command" "$options")" -- "$word"))
    elif [[ $before == --* ]] && values=$(_lrc_values "$program" "$command" "$before") && [[ $values ]]; then
        COMPREPLY=($(compgen -W "$values" -- "$word"))
    fi
}

complete -o default -F _lrc lrc ./lrc
