# Prints the completions that zsh offers at the end of a tourkit command line, one per line, and what the commands wrote to standard error.
# It starts another shell on a terminal, types the commands there, and presses a key that inserts all completions into the line.
# usage: zsh -f tests/package/offers.zsh COMMANDS LINE        (COMMANDS turn completions on)
zmodload zsh/zpty
work=$(mktemp -d)

# Waits until the other shell has written a file, and reads what is on its terminal.
await() {
    for try in {1..200}; do
        while zpty -rt shell output; do :; done
        [[ -s $1 ]] && break
        sleep 0.05
    done
}

zpty shell zsh -f -i
zpty -w shell "put-all() { compstate[insert]=all; compstate[list]= }
    offer() { comppostfuncs=(put-all); _main_complete }
    tell() { print -r -- \"\$BUFFER\" >$work/new; mv $work/new $work/line }
    zle -C offer complete-word offer; zle -N tell
    bindkey '^I' offer '^X' tell; exec 2>$work/errors"
zpty -w shell "$1"
zpty -w shell "print ready >$work/ready"
await $work/ready
zpty -wn shell "$2"$'\t\030'
await $work/line
zpty -d shell
offered=$(<$work/line)
print -rl -- ${(s: :)offered#${2% *} }
cat $work/errors >&2
rm -rf $work
