# Prints the completions that bash offers at the end of a tourkit command line, one per line.
# usage: bash --norc tests/package/offers.bash COMMANDS LINE        (COMMANDS turn completions on)
eval "$1"
complete -p tourkit >/dev/null || exit
read -ra COMP_WORDS <<<"${2//=/ = }"
[[ $2 != *[\ =] ]] || COMP_WORDS+=("")
COMP_CWORD=$((${#COMP_WORDS[@]} - 1))
_tourkit
printf '%s\n' "${COMPREPLY[@]}"
