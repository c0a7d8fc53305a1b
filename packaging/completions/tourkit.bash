# Completion for tourkit in bash. The package bash-completion finds it by its name; it needs nothing of that
# package.

# Offers the words among these that begin with the word at the cursor.
_tourkit_words() {
    local found
    mapfile -t found < <(compgen -W "$1" -- "$word")
    COMPREPLY+=("${found[@]}")
}

# Offers files.
_tourkit_files() {
    local found
    mapfile -t found < <(compgen -f -- "$word")
    COMPREPLY+=("${found[@]}")
    compopt -o filenames 2>/dev/null
}

# Offers the options of the command.
_tourkit_options() {
    case ${COMP_WORDS[1]} in
        check) _tourkit_words "--json -h --help" ;;
        checksol) _tourkit_words "--json -h --help" ;;
        explain) _tourkit_words "-h --help" ;;
        info) _tourkit_words "--json -h --help" ;;
        matrix) _tourkit_words "--json -h --help" ;;
        near) _tourkit_words "-k --json -h --help" ;;
        plot) _tourkit_words "--html --names -h --help" ;;
        solve) _tourkit_words "-o --output --trials --seconds --candidates --runs --seed --or-segment --construction
            --final-sweep --initial-tour --initial-solution --vehicles --within-routes --progress --log --json -h --help" ;;
    esac
}

# Offers values for the next argument of the command.
_tourkit_arguments() {
    local place given=0
    for ((place = 2; place < COMP_CWORD; place++)); do
        [[ ${COMP_WORDS[place]} == -?* ]] || given=$((given + 1))
    done
    case ${COMP_WORDS[1]}:$given in
        help:*) _tourkit_words "$commands" ;;
        matrix:1) _tourkit_words "FULL_MATRIX UPPER_ROW LOWER_ROW UPPER_DIAG_ROW LOWER_DIAG_ROW UPPER_COL LOWER_COL
            UPPER_DIAG_COL LOWER_DIAG_COL" ;;
        explain:0)
            _tourkit_words "UnknownKeyword Repeated Missing Unsupported BadNumber OutOfLimit BadNode NotSymmetric
                Truncated TrailingData BadDepot DemandOverCapacity TooLong Read NoMemory UnknownKey RepeatedKey BadValue
                MissingProblem DollarInName WrongCount OutOfRange RepeatedCity BadCustomer ServedTwice OverCapacity NotServed
                WrongCost"
            _tourkit_files
            ;;
        explain:* | --completions:*) ;;
        *) _tourkit_files ;;
    esac
}

_tourkit() {
    local word=${COMP_WORDS[COMP_CWORD]} before=${COMP_WORDS[COMP_CWORD - 1]}
    local commands="check checksol explain info matrix near plot solve help"
    COMPREPLY=()
    # Bash splits --option=value into three words.
    if [ "$word" = "=" ]; then
        word=
    elif [ "$before" = "=" ]; then
        before=${COMP_WORDS[COMP_CWORD - 2]}
    fi
    case $COMP_CWORD:$before:$word in
        1:*) _tourkit_words "$commands --completions -h --help -V --version" ;;
        *:--completions:*) _tourkit_words "bash zsh fish" ;;
        *:-k:* | *:--trials:* | *:--seconds:* | *:--candidates:* | *:--runs:* | *:--seed:* | *:--vehicles:*) ;;
        *:--or-segment:*) _tourkit_words "1 2 3" ;;
        *:--construction:*) _tourkit_words "nearest savings" ;;
        *:-o:* | *:--output:* | *:--log:* | *:--names:* | *:--initial-tour:* | *:--initial-solution:* | *:*[\<\>]:*) _tourkit_files ;;
        *:*:-*) _tourkit_options ;;
        *) _tourkit_arguments ;;
    esac
}
complete -F _tourkit tourkit
