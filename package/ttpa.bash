# Completion of the program ttpa in bash: subcommands, options and files. The words are those of 'ttpa --help', so that none is kept here.

# The words that stand two blanks in, in what the program prints.
_ttpa_words() { "$@" 2>/dev/null | sed -nE 's/^  (-*[a-z][a-z-]*)( .*)?$/\1/p'; }

_ttpa() {
    local program=${COMP_WORDS[0]} subcommand=${COMP_WORDS[1]} word=${COMP_WORDS[COMP_CWORD]} words=
    if [ "$COMP_CWORD" -eq 1 ]; then
        words="$(_ttpa_words "$program" --help) help --help --version"
    elif [ "$subcommand" = help ]; then
        words=$(_ttpa_words "$program" --help)
    elif [[ $word == -* ]]; then
        words="$(_ttpa_words "$program" "$subcommand" --help) --help"
    fi
    # without a word of these, bash completes the name of a file
    mapfile -t COMPREPLY < <(compgen -W "$words" -- "$word")
}

complete -o default -F _ttpa ttpa
