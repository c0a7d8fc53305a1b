# Prints the completions that fish offers at the end of a tourkit command line, one per line.
# usage: fish tests/package/offers.fish COMMANDS LINE        (COMMANDS turn completions on)
eval $argv[1]
complete -C $argv[2] | cut -f 1
