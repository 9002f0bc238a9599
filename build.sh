# shellcheck shell=sh
# How the programs and the library for C are built, and when: sourced by the wrapper, by install and
# by examples/c/build, with `top` set to the folder of this repository.
: "${top:?}"
#
# What is built for a processor stays in out/PROCESSOR/, beside a file NAME.of that says what it was
# built from: the checksum of the sources of the crate and of all below it, with their rows of
# crates.txt, and the toolchain's line. No file's time counts.

# shellcheck disable=SC2034
programs='slh slh_cli slh_batch_cli slh_chain_cli slh_manifest_cli slh_ring_cli slh_log_cli'

# say TEXT: a message on standard error
say() {
    echo "${0##*/}: $*" >&2
}

# The processor to build for: SLH_CPU, or x86-64-v3 where this one has AVX2.
processor() {
    if [ -n "${SLH_CPU:-}" ]; then
        echo "$SLH_CPU"
    elif grep -qw avx2 /proc/cpuinfo 2>/dev/null; then
        echo x86-64-v3
    else
        echo x86-64
    fi
}

# is_level NAME: whether code is built for that processor. The toolchain's way by LLVM refuses x86-64-v4,
# and what it refuses would be told only after all proofs.
is_level() {
    case $1 in
    x86-64 | x86-64-v2 | x86-64-v3) return 0 ;;
    esac
    say "no code is built for '$1': SLH_CPU and SLH_HWCAPS take x86-64, x86-64-v2 and x86-64-v3"
    return 1
}

# are_levels: whether code is built for each processor that SLH_CPU and SLH_HWCAPS name
are_levels() {
    for named in ${SLH_CPU:-} ${SLH_HWCAPS:-}; do
        is_level "$named" || return 1
    done
}

# The rows of crates.txt for a crate and all of the repository's that it stands on.
rows_below() {
    awk -v crate="$1" '
        /^#/ || NF == 0 { next }
        {
            name = $1
            sub(/:$/, "", name)
            row[name] = $0
            line = $0
            sub(/^[^:]*:/, "", line)
            below[name] = line
        }
        function take(name,    i, n, others) {
            if (!(name in row) || name in taken) return
            taken[name]
            print row[name]
            n = split(below[name], others, " ")
            for (i = 1; i <= n; i++) take(others[i])
        }
        END { take(crate) }' "$top/crates.txt" | LC_ALL=C sort
}

# The toolchain's line; nothing where there is no toolchain.
toolchain() {
    rt=$(command -v rt) || return 0
    rt=$(readlink -f "$rt")
    # a kit keeps its line in a file, which is read in no time
    cat "${rt%/*/*}/KIT-ID" 2>/dev/null || rt version
}

# The checksum of a crate's sources and of those of all below it.
sources_sum() (
    cd "$top" || exit 1
    rows=$(rows_below "$1")
    folders=$(echo "$rows" | sed 's/[: ].*//; s|^|crates/|')
    {
        echo "$rows"
        # names of crates have no spaces
        # shellcheck disable=SC2086
        find $folders -name out -prune -o -type f \( -name '*.rt' -o -name '*.antt' \) -print |
            LC_ALL=C sort | xargs sha256sum
    } | sha256sum | cut -d ' ' -f 1
)

# for_prover: the prover's allocator keeps what it was given, which saves 4 in 100 of the processor's time
for_prover() {
    export MIMALLOC_PURGE_DELAY=-1
}

# workers: how many crates can be proved side by side: one a processor, with 5 GB of memory for each
workers() {
    awk -v processors="$(nproc)" '
        $1 == "MemAvailable:" { n = int($2 / 5000000) }
        END { if (n > processors) n = processors; print n < 1 ? 1 : n }' /proc/meminfo
}

# is_built FILE SUM: whether a file is there that was built from sources of this sum by this
# toolchain, or by any where there is none
is_built() {
    [ -f "$1" ] && { read -r built_sum built_by <"$1.of"; } 2>/dev/null &&
        [ "$built_sum" = "$2" ] || return 1
    line=$(toolchain)
    [ -z "$line" ] || [ "$line" = "$built_by" ]
}

# keep_built MADE FILE SUM: keeps as FILE what was made of sources of this sum
keep_built() {
    mkdir -p "${2%/*}" || return 1
    # without FILE.of it isn't built: so an interrupt leaves no program beside another one's
    rm -f "$2.of"
    cp "$1" "$2.new" && mv "$2.new" "$2" && echo "$3 $(toolchain)" >"$2.of"
}

# sources_for ROW: sets `copy` to a new folder with the sources of the crates that a row of crates.txt stands
# on, for a crate that the gate has no place for. Its own folder there is empty.
sources_for() {
    copy=$(mktemp -d)
    trap 'rm -rf "$copy"' EXIT
    trap 'exit 1' HUP INT TERM
    mkdir -p "$copy/crates/${1%%[: ]*}"
    cp "$top/HANDLES" "$copy"
    for need in ${1#*:}; do rows_below "$need"; done | LC_ALL=C sort -u >"$copy/crates.txt"
    sed 's/[: ].*//' "$copy/crates.txt" | while read -r it; do
        tar -C "$top/crates" --exclude "$it/out" -cf - "$it" | tar -C "$copy/crates" -xf - || exit 1
    done
    echo "$1" >>"$copy/crates.txt"
}

# copy_for ROW: the same, with what is proved of them
copy_for() {
    sources_for "$1"
    for kept in "$copy"/crates/*; do
        kept=${kept##*/}
        [ ! -d "$top/crates/$kept/out" ] || cp -Rp "$top/crates/$kept/out" "$copy/crates/$kept" || exit 1
    done
}

# The checksum of all sources in `copy`.
copy_sum() (
    cd "$copy" || exit 1
    {
        cat crates.txt
        find crates -name out -prune -o -type f \( -name '*.rt' -o -name '*.antt' \) -print |
            LC_ALL=C sort | xargs sha256sum
    } | sha256sum | cut -d ' ' -f 1
)

# can_write FOLDER: whether something can be made in its out/
can_write() {
    mkdir -p "$1/out" 2>/dev/null && [ -w "$1/out" ]
}

# build CRATE COMMAND MADE FILE: proves and builds a crate by `rt COMMAND`, which makes out/MADE, and
# keeps that as FILE. The progress goes to standard error. One build at a time: a second one waits.
build() {
    command -v rt >/dev/null || {
        say "$4 isn't built from the sources as they are, and there is no rt to build it (docs/BUILD.md)"
        return 1
    }
    for folder in "$top" "$top/crates/$1"; do
        can_write "$folder" || {
            say "$4 isn't built from the sources as they are, and $folder can't be written"
            return 1
        }
    done
    mkdir -p "${4%/*}" || return 1
    (
        flock 9 || exit 1
        of=$(sources_sum "$1") || exit 1
        # who waited may find it built
        is_built "$4" "$of" && exit 0
        say "proving and building $1 for $cpu, which takes long the first time (docs/BUILD.md)"
        cd "$top/crates/$1" || exit 1
        for_prover
        # The crates side by side. What this leaves, for want of memory say, the command after it proves, one
        # after the other; it also tells what fails.
        rt all check --jobs "$(workers)" </dev/null >&2 || :
        # without words the command for people ends with status 2
        if [ "$1" = slh ]; then
            rt run --cpu "$cpu" -- --version </dev/null >&2 || exit 1
        else
            rt "$2" --cpu "$cpu" </dev/null >&2 || exit 1
        fi
        [ "$(sources_sum "$1")" = "$of" ] || {
            say 'a source was edited meanwhile: call it once more'
            exit 1
        }
        # the object of a program, for who links it in another way
        if [ -f "out/$3.o" ]; then
            rm -f "$4.of"
            cp "out/$3.o" "$4.o" || exit 1
        fi
        keep_built "out/$3" "$4" "$of"
    ) 9>"$top/out/lock"
}

# program_of CRATE: sets `program` to the crate's program, which is built where it isn't yet
program_of() {
    cpu=$(processor)
    is_level "$cpu" || return 1
    program=$top/out/$cpu/$1
    is_built "$program" "$(sources_sum "$1")" || build "$1" run "$1" "$program"
}

# archive_of CRATE: sets `archive` to the crate's static library, which is built where it isn't yet
archive_of() {
    cpu=$(processor)
    is_level "$cpu" || return 1
    archive=$top/out/$cpu/lib$1.a
    is_built "$archive" "$(sources_sum "$1")" || build "$1" lib "lib$1.a" "$archive"
}
