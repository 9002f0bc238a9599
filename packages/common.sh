# shellcheck shell=sh
# What the packages share: sourced by each `build`, with `top` set to the folder of this repository.
set -eu
: "${top:?}"
# shellcheck source=../build.sh
. "$top/build.sh"
SLH_CPU=${SLH_CPU:-x86-64}
export SLH_CPU

# What is packed is for all users, whatever the mask was, and its order no language's.
umask 022
LC_ALL=C
export LC_ALL

# shellcheck disable=SC2034
version=$(sed -n 's/^#define SLH_DSA_VERSION "\(.*\)"$/\1/p' "$top/crates/slh_dsa_c/include/slh_dsa.h")

# Every file has the time of the last commit, or of SOURCE_DATE_EPOCH where that is set.
SOURCE_DATE_EPOCH=${SOURCE_DATE_EPOCH:-$(git -C "$top" log -1 --format=%ct)} || {
    say 'there is no commit to take the time from: set SOURCE_DATE_EPOCH'
    exit 1
}
export SOURCE_DATE_EPOCH

# needs COMMAND..: ends where one isn't there
needs() {
    for command in "$@"; do
        command -v "$command" >/dev/null || { say "there is no $command"; exit 1; }
    done
}

# lay_out ROOT LIBDIR [--openssl]: installs all below ROOT/usr, libraries in its folder LIBDIR
lay_out() {
    DESTDIR=$1 LIBDIR=$2 "$top/install" ${3:+"$3"} /usr
}
