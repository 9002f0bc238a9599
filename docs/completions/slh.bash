# Completions of slh for bash: source this file, or put it into a folder that bash-completion reads.
# Written by docs/draw_words from the tables of words in crates/slh_arguments/src: edit those.

_slh() {
    local word=${COMP_WORDS[COMP_CWORD]} previous=${COMP_WORDS[COMP_CWORD - 1]}
    local words=

    case $previous in
    --set)
        words='SLH-DSA-SHA2-128s SLH-DSA-SHA2-128f SLH-DSA-SHA2-192s SLH-DSA-SHA2-192f
            SLH-DSA-SHA2-256s SLH-DSA-SHA2-256f' ;;
    --prehash) words='sha256 sha512' ;;
    --context | --context-hex | --depth | --dsse | --evidence | --from | --iterations | --key-text | --name | --origin | --path) return ;;
    esac
    if [ -z "$words" ] && [ "$COMP_CWORD" -eq 1 ]; then
        words='keygen key public sign verify audit evidence inspect batch manifest chain ring
            log help --help --version'
    elif [ -z "$words" ] && [ "$COMP_CWORD" -eq 2 ]; then
        case ${COMP_WORDS[1]} in
        batch) words='sign verify --help' ;;
        manifest) words='seal check --help' ;;
        chain) words='delegate walk show verify --help' ;;
        ring) words='master key record restore --help' ;;
        log) words='init append prune prove verify growth check --help' ;;
        help)
            words='keygen key public sign verify audit evidence inspect batch manifest chain ring
                log' ;;
        esac
    fi
    if [ -z "$words" ]; then
        case "${COMP_WORDS[1]} ${COMP_WORDS[2]}" in
        'keygen '*) words='--set --passphrase-file --iterations --help' ;;
        'key '*)
            words='--key --passphrase-file --new-passphrase-file --iterations --output --help' ;;
        'public '*) words='--key --passphrase-file --output --help' ;;
        'sign '*)
            words='--key --passphrase-file --context --context-hex --prehash --dsse --deterministic
                --audit --output --help' ;;
        'verify '*)
            words='--key --key-text --signature --context --context-hex --prehash --dsse --payload
                --json --help' ;;
        'audit '*)
            words='--key --passphrase-file --signature --context --context-hex --prehash --json
                --help' ;;
        'evidence '*)
            words='--key --passphrase-file --signature --evidence --context --context-hex --prehash
                --json --help' ;;
        'inspect '*) words='--passphrase-file --help' ;;
        'batch sign') words='--key --passphrase-file --head --deterministic --help' ;;
        'batch verify') words='--key --key-text --head --receipt --json --help' ;;
        'manifest seal') words='--key --passphrase-file --deterministic --output --help' ;;
        'manifest check') words='--key --key-text --chain --manifest --strict --json --help' ;;
        'chain delegate')
            words='--key --passphrase-file --subject --name --depth --chain --deterministic --output
                --help' ;;
        'chain walk') words='--key --key-text --chain --output --help' ;;
        'chain show') words='--key --key-text --chain --help' ;;
        'chain verify')
            words='--key --key-text --chain --signature --context --context-hex --prehash --json
                --help' ;;
        'ring master') words='--help' ;;
        'ring key') words='--set --master --path --passphrase-file --iterations --help' ;;
        'ring record') words='--set --master --output --help' ;;
        'ring restore') words='--master --help' ;;
        'log init') words='--key --passphrase-file --origin --last --deterministic --help' ;;
        'log append')
            words='--key --passphrase-file --last --lines --break-lock --deterministic --help' ;;
        'log prune') words='--key --passphrase-file --last --break-lock --help' ;;
        'log prove') words='--from --output --help' ;;
        'log verify') words='--key --key-text --origin --checkpoint --proof --json --help' ;;
        'log growth') words='--key --key-text --origin --old --new --proof --json --help' ;;
        'log check') words='--key --key-text --origin --json --help' ;;
        esac
    fi

    local files=yes
    case $COMP_CWORD:${COMP_WORDS[1]} in
    1:* | 2:batch | 2:manifest | 2:chain | 2:ring | 2:log | *:help) files= ;;
    esac
    case $previous:$word in
    --set:* | --prehash:* | *:-*) files= ;;
    esac
    [ -z "$files" ] || mapfile -t COMPREPLY < <(compgen -f -- "$word")
    local found
    while read -r found; do
        COMPREPLY+=("$found")
    done < <(compgen -W "$words" -- "$word")
}

complete -o filenames -F _slh slh
