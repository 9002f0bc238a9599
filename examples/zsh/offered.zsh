# offered.zsh COMPLETIONS LINE: what zsh offers where a line is typed, by a file of completions, a line for
# each. The line is edited in a terminal of its own, and what is given to `compadd` is written down. HOME
# gets a dump of what compinit finds.
emulate -R zsh

if [[ $1 != --inside ]]; then
    zmodload zsh/zpty || exit
    found=$(mktemp)
    zpty terminal "zsh -f ${(q)0:A} --inside ${(q)found} ${(q)1} ${(q)2}"
    while zpty -r terminal >/dev/null; do :; done
    cat $found
    rm $found
    exit
fi

exec 3>$2
autoload -Uz compinit
compinit -u
source $3

# Where a call only fills arrays of its caller nothing is offered.
compadd() {
    local -a offered_words
    if [[ -z ${(M)argv[1,(i)-(|-)]:#-[OAD]*} ]]; then
        builtin compadd -O offered_words "$@"
        (( ! $#offered_words )) || print -rlu 3 -- $offered_words
    fi
    builtin compadd "$@"
}

# The line is one of commands. vared takes it for a value. What is found is not shown.
offer() {
    compstate[vared]=
    _main_complete
    compstate[list]=
}

offer-line() {
    BUFFER=$line CURSOR=$#line
    zle offer
    BUFFER=
    zle .accept-line
}

line=$4
zle -C offer list-choices offer
zle -N offer-line
vared -i offer-line -c typed
