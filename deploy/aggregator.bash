# Completion of the program's words in bash. The package has it as /usr/share/bash-completion/completions/aggregator.
# shellcheck shell=bash

_aggregator() {
    local word=${COMP_WORDS[COMP_CWORD]} before=${COMP_WORDS[COMP_CWORD - 1]} command=${COMP_WORDS[1]}
    COMPREPLY=()
    if [ "$COMP_CWORD" = 1 ]; then
        mapfile -t COMPREPLY < <(compgen -W "serve check replay timemap timegate help --help --version" -- "$word")
    elif [ "$before" = --form ]; then
        mapfile -t COMPREPLY < <(compgen -W "link json cdxj" -- "$word")
    elif [[ $command == timemap && $word == -* ]]; then
        mapfile -t COMPREPLY < <(compgen -W "- --form --help" -- "$word")
    elif [[ $command =~ ^(serve|check|timemap|timegate)$ && $COMP_CWORD = 2 ]]; then
        compopt -o filenames
        mapfile -t COMPREPLY < <(compgen -d -- "$word"; compgen -f -X '!*.toml' -- "$word")
    fi
}

complete -F _aggregator aggregator
