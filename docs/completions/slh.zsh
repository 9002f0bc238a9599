#compdef slh
# Completions of slh for zsh: put this file, as _slh, into a folder of fpath.
# Written by docs/draw_words from the tables of words in crates/slh_arguments/src: edit those.

_slh_set() {
    local -a values=(
        SLH-DSA-SHA2-128s SLH-DSA-SHA2-128f SLH-DSA-SHA2-192s SLH-DSA-SHA2-192f
        SLH-DSA-SHA2-256s SLH-DSA-SHA2-256f
    )
    compadd "$@" -a values
}

_slh_hash() {
    local -a values=(
        sha256 sha512
    )
    compadd "$@" -a values
}

_slh_batch() {
    local curcontext=$curcontext state
    local -a line commands=(
        'sign:Signs many files at once\: FILE.receipt for each'
        'verify:Verifies the receipt of a file\: accepted (0) or invalid (1)'
    )
    _arguments -C -S \
        '(- *)'{-h,--help}'[Print help]' \
        '1:command:->command' \
        '*::word:->words' && return
    case $state in
    command) _describe command commands ;;
    words)
        curcontext=${curcontext%:*}-$words[1]:
        case $words[1] in
        sign)
            _arguments -S \
                '(- *)'{-h,--help}'[Print help]' \
                '--key=[The signing key]:NAME.key:_files -g "*.key"' \
                '--passphrase-file=[The passphrase of an encrypted key\: the first line of a file]:FILE:_files' \
                '--head=[Where the head of the batch goes]:HEAD:_files' \
                '--deterministic[Signs without random bytes]' \
                '*:FILE:_files'
            ;;
        verify)
            _arguments -S \
                '(- *)'{-h,--help}'[Print help]' \
                '(--key-text)--key=[The verifying key]:NAME.pub:_files -g "*.pub"' \
                '(--key)--key-text=[The verifying key itself, as '\''SET HEX'\'']:TEXT: ' \
                '--head=[The head of the batch that the file has to be in]:HEAD:_files' \
                '--receipt=[The receipt; FILE.receipt if it is left out]:FILE.receipt:_files -g "*.receipt"' \
                '--json[Tells the verdict as an object of JSON]' \
                '1:FILE:_files'
            ;;
        esac
        ;;
    esac
}

_slh_manifest() {
    local curcontext=$curcontext state
    local -a line commands=(
        'seal:Signs the regular files below a folder, up to 4096'
        'check:Tells whether a folder has the files of a manifest\: accepted (0), or which is missing, differs or is unnamed (1)'
    )
    _arguments -C -S \
        '(- *)'{-h,--help}'[Print help]' \
        '1:command:->command' \
        '*::word:->words' && return
    case $state in
    command) _describe command commands ;;
    words)
        curcontext=${curcontext%:*}-$words[1]:
        case $words[1] in
        seal)
            _arguments -S \
                '(- *)'{-h,--help}'[Print help]' \
                '--key=[The signing key]:NAME.key:_files -g "*.key"' \
                '--passphrase-file=[The passphrase of an encrypted key\: the first line of a file]:FILE:_files' \
                '--deterministic[Signs without random bytes]' \
                '--output=[Where the manifest goes]:MANIFEST:_files' \
                '1:FOLDER:_files -/'
            ;;
        check)
            _arguments -S \
                '(- *)'{-h,--help}'[Print help]' \
                '(--key-text)--key=[The verifying key]:NAME.pub:_files -g "*.pub"' \
                '(--key)--key-text=[The verifying key itself, as '\''SET HEX'\'']:TEXT: ' \
                '--chain=[A chain from that key to the one that sealed]:CHAIN:_files' \
                '--manifest=[The manifest]:MANIFEST:_files' \
                '--strict[Refuses a file below the folder that the manifest doesn'\''t name]' \
                '--json[Tells the verdict as an object of JSON]' \
                '1:FOLDER:_files -/'
            ;;
        esac
        ;;
    esac
}

_slh_chain() {
    local curcontext=$curcontext state
    local -a line commands=(
        'delegate:Lets another key act\: a chain with a link more'
        'walk:Writes the key at the end of a chain'
        'show:Writes a line for each link of a chain\: its depth, its key and its name'
        'verify:Verifies a file under the key at the end of a chain\: accepted (0) or invalid (1)'
    )
    _arguments -C -S \
        '(- *)'{-h,--help}'[Print help]' \
        '1:command:->command' \
        '*::word:->words' && return
    case $state in
    command) _describe command commands ;;
    words)
        curcontext=${curcontext%:*}-$words[1]:
        case $words[1] in
        delegate)
            _arguments -S \
                '(- *)'{-h,--help}'[Print help]' \
                '--key=[The signing key]:NAME.key:_files -g "*.key"' \
                '--passphrase-file=[The passphrase of an encrypted key\: the first line of a file]:FILE:_files' \
                '--subject=[The key that may act]:OTHER.pub:_files -g "*.pub"' \
                '--name=[The name it acts under, 1 to 64 bytes]:TEXT: ' \
                '--depth=[How deep it may delegate, 0 to 15]:NUMBER: ' \
                '--chain=[The chain from the root key]:CHAIN:_files' \
                '--deterministic[Signs without random bytes]' \
                '--output=[Where the chain with the new link goes]:CHAIN:_files'
            ;;
        walk)
            _arguments -S \
                '(- *)'{-h,--help}'[Print help]' \
                '(--key-text)--key=[The root'\''s verifying key]:ROOT.pub:_files -g "*.pub"' \
                '(--key)--key-text=[The verifying key itself, as '\''SET HEX'\'']:TEXT: ' \
                '--chain=[The chain from the root key]:CHAIN:_files' \
                '--output=[Where it goes, in place of standard output]:FILE:_files'
            ;;
        show)
            _arguments -S \
                '(- *)'{-h,--help}'[Print help]' \
                '(--key-text)--key=[The root'\''s verifying key]:ROOT.pub:_files -g "*.pub"' \
                '(--key)--key-text=[The verifying key itself, as '\''SET HEX'\'']:TEXT: ' \
                '--chain=[The chain from the root key]:CHAIN:_files'
            ;;
        verify)
            _arguments -S \
                '(- *)'{-h,--help}'[Print help]' \
                '(--key-text)--key=[The root'\''s verifying key]:ROOT.pub:_files -g "*.pub"' \
                '(--key)--key-text=[The verifying key itself, as '\''SET HEX'\'']:TEXT: ' \
                '--chain=[The chain from the root key]:CHAIN:_files' \
                '--signature=[The signature; FILE.sig if it is left out]:FILE.sig:_files -g "*.sig"' \
                '(--context-hex)--context=[The context, at most 255 bytes]:TEXT: ' \
                '(--context)--context-hex=[The context in hexadecimal]:HEX: ' \
                '--prehash=[Signs this digest of the file]:HASH:_slh_hash' \
                '--json[Tells the verdict as an object of JSON]' \
                '1:FILE:_files'
            ;;
        esac
        ;;
    esac
}

_slh_ring() {
    local curcontext=$curcontext state
    local -a line commands=(
        'master:Makes a master secret of random bytes'
        'key:Makes the key at a path again\: NAME.key and NAME.pub'
        'record:Writes the record of a ring, which is no secret'
        'restore:Writes the paths of a record, where its keys are those of the master'
    )
    _arguments -C -S \
        '(- *)'{-h,--help}'[Print help]' \
        '1:command:->command' \
        '*::word:->words' && return
    case $state in
    command) _describe command commands ;;
    words)
        curcontext=${curcontext%:*}-$words[1]:
        case $words[1] in
        master)
            _arguments -S \
                '(- *)'{-h,--help}'[Print help]' \
                '1:FILE:_files'
            ;;
        key)
            _arguments -S \
                '(- *)'{-h,--help}'[Print help]' \
                '--set=[The parameter set]:SET:_slh_set' \
                '--master=[The master secret]:FILE:_files' \
                '--path=[Up to 8 numbers with slashes, or a dot]:PATH: ' \
                '--passphrase-file=[Encrypts NAME.key by a passphrase, the first line of a file]:FILE:_files' \
                '--iterations=[How often a passphrase is hashed, up to 10000000; 600000 if it is left out]:NUMBER: ' \
                '1:NAME:_files'
            ;;
        record)
            _arguments -S \
                '(- *)'{-h,--help}'[Print help]' \
                '--set=[The parameter set]:SET:_slh_set' \
                '--master=[The master secret]:FILE:_files' \
                '--output=[Where it goes, in place of standard output]:RECORD:_files' \
                '*:PATH: '
            ;;
        restore)
            _arguments -S \
                '(- *)'{-h,--help}'[Print help]' \
                '--master=[The master secret]:FILE:_files' \
                '1:RECORD:_files'
            ;;
        esac
        ;;
    esac
}

_slh_log() {
    local curcontext=$curcontext state
    local -a line commands=(
        'init:Begins a log without entries in a folder'
        'append:Adds each file as an entry, and signs the head again'
        'prune:Removes partial tiles that became full, and what no head counts'
        'prove:Writes the proof that an entry is in the log, or that the log grew'
        'verify:Tells whether a file is an entry of the log of a proof\: accepted (0) or invalid (1)'
        'growth:Tells whether a log kept all entries of an older checkpoint\: accepted (0) or invalid (1)'
        'check:Makes everything again from the entries, and compares\: accepted (0) or invalid (1)'
    )
    _arguments -C -S \
        '(- *)'{-h,--help}'[Print help]' \
        '1:command:->command' \
        '*::word:->words' && return
    case $state in
    command) _describe command commands ;;
    words)
        curcontext=${curcontext%:*}-$words[1]:
        case $words[1] in
        init)
            _arguments -S \
                '(- *)'{-h,--help}'[Print help]' \
                '--key=[The signing key]:NAME.key:_files -g "*.key"' \
                '--passphrase-file=[The passphrase of an encrypted key\: the first line of a file]:FILE:_files' \
                '--origin=[The name of the log]:ORIGIN: ' \
                '--last=[The head that was signed last; NAME.key.ORIGIN.last if it is left out]:FILE:_files' \
                '--deterministic[Signs without random bytes]' \
                '1:FOLDER:_files -/'
            ;;
        append)
            _arguments -S \
                '(- *)'{-h,--help}'[Print help]' \
                '--key=[The signing key]:NAME.key:_files -g "*.key"' \
                '--passphrase-file=[The passphrase of an encrypted key\: the first line of a file]:FILE:_files' \
                '--last=[The head that was signed last; NAME.key.ORIGIN.last if it is left out]:FILE:_files' \
                '--lines[Adds each line of a file as an entry, without its end]' \
                '--break-lock[Takes the lock of a process of this host that is gone]' \
                '--deterministic[Signs without random bytes]' \
                '1:FOLDER:_files -/' \
                '*:FILE:_files'
            ;;
        prune)
            _arguments -S \
                '(- *)'{-h,--help}'[Print help]' \
                '--key=[The signing key]:NAME.key:_files -g "*.key"' \
                '--passphrase-file=[The passphrase of an encrypted key\: the first line of a file]:FILE:_files' \
                '--last=[The head that was signed last; NAME.key.ORIGIN.last if it is left out]:FILE:_files' \
                '--break-lock[Takes the lock of a process of this host that is gone]' \
                '1:FOLDER:_files -/'
            ;;
        prove)
            _arguments -S \
                '(- *)'{-h,--help}'[Print help]' \
                '--from=[Proves that the log grew from its first so many entries]:SIZE: ' \
                '--output=[Where it goes, in place of standard output]:FILE:_files' \
                '1:FOLDER:_files -/' \
                '2:INDEX: '
            ;;
        verify)
            _arguments -S \
                '(- *)'{-h,--help}'[Print help]' \
                '(--key-text)--key=[The verifying key]:NAME.pub:_files -g "*.pub"' \
                '(--key)--key-text=[The verifying key itself, as '\''SET HEX'\'']:TEXT: ' \
                '--origin=[The name of the log]:ORIGIN: ' \
                '--checkpoint=[The checkpoint; the one in the proof if it is left out]:CHECKPOINT:_files' \
                '--proof=[The proof]:PROOF:_files' \
                '--json[Tells the verdict as an object of JSON]' \
                '1:FILE:_files'
            ;;
        growth)
            _arguments -S \
                '(- *)'{-h,--help}'[Print help]' \
                '(--key-text)--key=[The verifying key]:NAME.pub:_files -g "*.pub"' \
                '(--key)--key-text=[The verifying key itself, as '\''SET HEX'\'']:TEXT: ' \
                '--origin=[The name of the log]:ORIGIN: ' \
                '--old=[The older checkpoint]:CHECKPOINT:_files' \
                '--new=[The newer checkpoint]:CHECKPOINT:_files' \
                '--proof=[The proof]:PROOF:_files' \
                '--json[Tells the verdict as an object of JSON]'
            ;;
        check)
            _arguments -S \
                '(- *)'{-h,--help}'[Print help]' \
                '(--key-text)--key=[The verifying key]:NAME.pub:_files -g "*.pub"' \
                '(--key)--key-text=[The verifying key itself, as '\''SET HEX'\'']:TEXT: ' \
                '--origin=[The name of the log; that of its checkpoint if it is left out]:ORIGIN: ' \
                '--json[Tells the verdict as an object of JSON]' \
                '1:FOLDER:_files -/'
            ;;
        esac
        ;;
    esac
}

_slh() {
    local curcontext=$curcontext state
    local -a line commands=(
        'keygen:Makes a key of random bytes\: NAME.key, which is secret, and NAME.pub'
        'key:Writes a signing key anew\: encrypted, in the open, or by another passphrase'
        'public:Writes the verifying key of a signing key'
        'sign:Signs a file; the signature goes to FILE.sig'
        'verify:Verifies the signatures of files\: accepted (0) or invalid (1)'
        'audit:Tells whether a key made a signature\: genuine (0), foreign or invalid (1)'
        'evidence:Tells whether evidence shows against a signature\: shown (0) or not shown (1)'
        'inspect:Tells what a key or a signature is, and nothing that is secret'
        'batch:One signature for many files, and a receipt for each'
        'manifest:One signature for the files of a folder'
        'chain:Keys that sign keys'
        'ring:The keys that one master secret gives'
        'log:A signed log that only grows'
        'help:Print help for a command'
    )
    _arguments -C -S \
        '(- *)'{-h,--help}'[Print help]' \
        '(- *)'{-V,--version}'[Print version]' \
        '1:command:->command' \
        '*::word:->words' && return
    case $state in
    command) _describe command commands ;;
    words)
        curcontext=${curcontext%:*}-$words[1]:
        case $words[1] in
        keygen)
            _arguments -S \
                '(- *)'{-h,--help}'[Print help]' \
                '--set=[The parameter set; SLH-DSA-SHA2-128s if it is left out]:SET:_slh_set' \
                '--passphrase-file=[Encrypts NAME.key by a passphrase, the first line of a file]:FILE:_files' \
                '--iterations=[How often a passphrase is hashed, up to 10000000; 600000 if it is left out]:NUMBER: ' \
                '1:NAME:_files'
            ;;
        key)
            _arguments -S \
                '(- *)'{-h,--help}'[Print help]' \
                '--key=[The signing key]:NAME.key:_files -g "*.key"' \
                '--passphrase-file=[The passphrase of an encrypted key\: the first line of a file]:FILE:_files' \
                '--new-passphrase-file=[Encrypts the key by a passphrase, the first line of a file]:FILE:_files' \
                '--iterations=[How often a passphrase is hashed, up to 10000000; 600000 if it is left out]:NUMBER: ' \
                '--output=[Where the key goes, where no file is]:NAME.key:_files -g "*.key"'
            ;;
        public)
            _arguments -S \
                '(- *)'{-h,--help}'[Print help]' \
                '--key=[The signing key]:NAME.key:_files -g "*.key"' \
                '--passphrase-file=[The passphrase of an encrypted key\: the first line of a file]:FILE:_files' \
                '--output=[Where it goes, in place of standard output]:FILE:_files'
            ;;
        sign)
            _arguments -S \
                '(- *)'{-h,--help}'[Print help]' \
                '--key=[The signing key]:NAME.key:_files -g "*.key"' \
                '--passphrase-file=[The passphrase of an encrypted key\: the first line of a file]:FILE:_files' \
                '(--context-hex)--context=[The context, at most 255 bytes]:TEXT: ' \
                '(--context)--context-hex=[The context in hexadecimal]:HEX: ' \
                '--prehash=[Signs this digest of the file]:HASH:_slh_hash' \
                '--dsse=[Signs it as a payload of this type, in a DSSE envelope, FILE.dsse]:TYPE: ' \
                '--deterministic[Signs without random bytes]' \
                '--audit[Makes the signature twice, and compares, before it is written]' \
                '--output=[Where the signature goes; - is standard output]:FILE.sig:_files -g "*.sig"' \
                '1:FILE:_files'
            ;;
        verify)
            _arguments -S \
                '(- *)'{-h,--help}'[Print help]' \
                '(--key-text)--key=[The verifying key]:NAME.pub:_files -g "*.pub"' \
                '(--key)--key-text=[The verifying key itself, as '\''SET HEX'\'']:TEXT: ' \
                '--signature=[The signature; FILE.sig if it is left out]:FILE.sig:_files -g "*.sig"' \
                '(--context-hex)--context=[The context, at most 255 bytes]:TEXT: ' \
                '(--context)--context-hex=[The context in hexadecimal]:HEX: ' \
                '--prehash=[This digest of the file was signed]:HASH:_slh_hash' \
                '--dsse=[The files are DSSE envelopes, with payloads of this type]:TYPE: ' \
                '--payload=[Where an envelope'\''s payload goes once it is accepted; - is standard output]:FILE:_files' \
                '--json[Tells the verdict as an object of JSON]' \
                '*:FILE:_files'
            ;;
        audit)
            _arguments -S \
                '(- *)'{-h,--help}'[Print help]' \
                '--key=[The signing key]:NAME.key:_files -g "*.key"' \
                '--passphrase-file=[The passphrase of an encrypted key\: the first line of a file]:FILE:_files' \
                '--signature=[The signature; FILE.sig if it is left out]:FILE.sig:_files -g "*.sig"' \
                '(--context-hex)--context=[The context, at most 255 bytes]:TEXT: ' \
                '(--context)--context-hex=[The context in hexadecimal]:HEX: ' \
                '--prehash=[Signs this digest of the file]:HASH:_slh_hash' \
                '--json[Tells the verdict as an object of JSON]' \
                '1:FILE:_files'
            ;;
        evidence)
            _arguments -S \
                '(- *)'{-h,--help}'[Print help]' \
                '--key=[The signing key]:NAME.key:_files -g "*.key"' \
                '--passphrase-file=[The passphrase of an encrypted key\: the first line of a file]:FILE:_files' \
                '--signature=[The signature; FILE.sig if it is left out]:FILE.sig:_files -g "*.sig"' \
                '--evidence=[What an audit printed after foreign]:WORDS: ' \
                '(--context-hex)--context=[The context, at most 255 bytes]:TEXT: ' \
                '(--context)--context-hex=[The context in hexadecimal]:HEX: ' \
                '--prehash=[Signs this digest of the file]:HASH:_slh_hash' \
                '--json[Tells the verdict as an object of JSON]' \
                '1:FILE:_files'
            ;;
        inspect)
            _arguments -S \
                '(- *)'{-h,--help}'[Print help]' \
                '--passphrase-file=[The passphrase of an encrypted key\: the first line of a file]:FILE:_files' \
                '1:FILE:_files'
            ;;
        batch) _slh_batch ;;
        manifest) _slh_manifest ;;
        chain) _slh_chain ;;
        ring) _slh_ring ;;
        log) _slh_log ;;
        help)
            commands=(${commands:#help:*})
            (( CURRENT == 2 )) && _describe command commands
            ;;
        esac
        ;;
    esac
}

if [[ $funcstack[1] == _slh ]]; then
    _slh "$@"
else
    compdef _slh slh
fi
