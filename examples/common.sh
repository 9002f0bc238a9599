# shellcheck shell=sh
# What the recipes share: `slh`, the programs of lines, the commands of bin/, a folder to work in that is
# removed in the end, and what holds replies to what is wanted: `expect`, `refused`, `accepts_line`.
set -eu
examples=$(dirname "$(readlink -f "$0")")
# absolute FILE: a name that holds in any folder; without a slash it may be a command of the PATH
absolute() {
    case $1 in
    /* | '') echo "$1" ;;
    */*) echo "$PWD/$1" ;;
    *)
        if [ -e "$1" ]; then
            echo "$PWD/$1"
        else
            command -v "$1" || { echo "there is no $1" >&2; return 1; }
        fi
        ;;
    esac
}
SLH=$(absolute "${SLH:-$examples/../slh}")
SLH_PROGRAM=$(absolute "${SLH_PROGRAM:-$examples/../slh_cli}")
SLH_BATCH_PROGRAM=$(absolute "${SLH_BATCH_PROGRAM:-$examples/../slh_batch_cli}")
SLH_CHAIN_PROGRAM=$(absolute "${SLH_CHAIN_PROGRAM:-$examples/../slh_chain_cli}")
SLH_MANIFEST_PROGRAM=$(absolute "${SLH_MANIFEST_PROGRAM:-$examples/../slh_manifest_cli}")
SLH_RING_PROGRAM=$(absolute "${SLH_RING_PROGRAM:-$examples/../slh_ring_cli}")
SLH_LOG_PROGRAM=$(absolute "${SLH_LOG_PROGRAM:-$examples/../slh_log_cli}")
SLH_C_LIBRARY=$(absolute "${SLH_C_LIBRARY:-}")
export SLH SLH_PROGRAM SLH_BATCH_PROGRAM SLH_CHAIN_PROGRAM SLH_MANIFEST_PROGRAM SLH_RING_PROGRAM \
    SLH_LOG_PROGRAM
PATH=$examples/bin:$PATH

# The names of the parameter sets.
# shellcheck disable=SC2034
sets=$(sed '/^#/d; s/ .*//' "$examples/sets.txt")

# size_of SET COLUMN: the bytes of a value of a set (2), or of a signature (3)
size_of() {
    awk -v name="$1" -v column="$2" '$1 == name { print $column }' "$examples/sets.txt"
}

work=$(mktemp -d)
trap 'rm -rf "$work"' EXIT
trap 'exit 1' HUP INT TERM
cd "$work"

fail() {
    echo "FAILED: $*" >&2
    exit 1
}

# slh WORDS..: the command
slh() {
    "$SLH" "$@"
}

# The hexadecimal digits of the bytes on standard input.
hex() {
    od -An -v -tx1 | tr -d ' \n'
}

# hex_of FILE: those of its bytes
hex_of() {
    hex <"$1"
}

# openssl_keys: keys.pem has the keys that OpenSSL made, and keys.der what `base64` makes of each block of
# it, one behind the other
openssl_keys() {
    cp "$examples/data/openssl_keys.pem" keys.pem
    awk '/^-----BEGIN/ { digits = ""; next } /^-----END/ { print digits; next } { digits = digits $0 }' keys.pem |
        while read -r digits; do echo "$digits" | base64 -d; done >keys.der
}

# vk_of NAME.pub: the line `SET VK` of a verifying key
vk_of() {
    slh inspect "$1" | awk '/^set: / { set = $2 } /^verifying key: / { print set, $3 }'
}

# accepts_line NAME.pub CONTEXT MESSAGE SIGNATURE: the plain `verify` of the program of lines accepts a
# signature. Message and signature are in hexadecimal
accepts_line() {
    printf '%s %s %s %s\n' "$(vk_of "$1" | sed 's/ / verify /')" "$(printf %s "$2" | hex)" \
        "$3" "$4" >line
    expect 0 accepted "$SLH_PROGRAM" <line
}

# refused TEXT WORDS..: slh ends with status 2, prints nothing, and says this
refused() {
    wanted=$1
    shift
    status=0
    slh "$@" >printed 2>message || status=$?
    [ "$status" -eq 2 ] || fail "slh $*: status $status"
    [ ! -s printed ] || fail "slh $*: printed $(cat printed)"
    grep -qF -- "$wanted" message || fail "slh $*: $(cat message), and not $wanted"
    cat message
}

# skip REASON: ends a recipe that this machine can't run
skip() {
    echo "skipped: $*"
    exit 77
}

# is_made CRATE FILE PROCESSOR..: whether out/ has FILE for each of these processors, or for that of the programs,
# made of the sources as they are. So nothing has to be proved for it
is_made() (
    top=$(readlink -f "$examples/..")
    # shellcheck source=../build.sh
    . "$top/build.sh"
    crate=$1 file=$2
    shift 2
    [ $# -gt 0 ] || set -- "$(processor)"
    sum=$(sources_sum "$crate")
    for each in "$@"; do
        is_built "$top/out/$each/$file" "$sum" || exit 1
    done
)

# is_ready PROGRAM: whether a program proves nothing when it is called: the caller's own, or one of the
# repository that is made
is_ready() {
    case $1 in
    "$examples"/../*) is_made "${1##*/}" "${1##*/}" ;;
    esac
}

# c_library: sets `library` to a folder that has the library for C: SLH_C_LIBRARY, or it is built
c_library() {
    command -v "${CC:-cc}" >/dev/null || skip "no ${CC:-cc}"
    if [ -n "$SLH_C_LIBRARY" ]; then
        library=$SLH_C_LIBRARY
        return
    fi
    command -v rt >/dev/null || skip 'no rt'
    library=$work/library
    "$examples/c/build" "$library"
}

# expect STATUS OUTPUT COMMAND..: runs a command and shows how it ends, which must be so
expect() {
    wanted="$2 (status $1)"
    shift 2
    status=0
    output=$("$@") || status=$?
    echo "\$ $*"
    echo "$output (status $status)"
    [ "$output (status $status)" = "$wanted" ] || fail "wanted $wanted"
}
