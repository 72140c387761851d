# Compares the released program with the sources. Scripts of this repository set `top` and source this file:
#   top=$(dirname "$(readlink -f "${BASH_SOURCE[0]}")"); . "$top/tools/release.sh"

released_files=(itchsnap libitchsnap.a libitchsnap.so)
released=$top/release/itchsnap
built=$top/crates/itch_tool/out/itch_tool

# A build contains this text where a released program contains `release` and the start of its sources' hash. Both have the same
# length.
unreleased="not a released build"

# Sets `crates` to a crate and its dependencies in this repository, lowest first, in the order of crates.txt, and `crate_lines` to their
# lines there.
find_crates() {
    local lines at line name it
    local -A needed=(["$1"]=yes)
    mapfile -t lines <"$top/crates.txt"
    crates=()
    crate_lines=()
    for ((at = ${#lines[@]} - 1; at >= 0; at--)); do
        line=${lines[at]%%#*}
        name=${line%%[: ]*}
        if [ -n "$name" ] && [ -n "${needed[$name]}" ]; then
            crates=("$name" "${crates[@]}")
            crate_lines=("$line" "${crate_lines[@]}")
            for it in ${line#*:}; do needed[$it]=yes; done
        fi
    done
}

# Prints the hash of everything that a crate is built from, by name and content: the lines of its crates in crates.txt, their .rt and
# .antt files, and any further files given.
source_hash() {
    local crates crate_lines hash
    find_crates "$1"
    hash=$(cd "$top" && {
        printf '%s\n' "${crate_lines[@]}"
        printf '%s\0' "${crates[@]/#/crates/}" "${@:2}" | xargs -0 -I {} find {} -name out -prune -o -type f \
            \( -name '*.rt' -o -name '*.antt' -o -path 'c/*' \) -print0 | LC_ALL=C sort -z | xargs -0 sha256sum
    } | sha256sum)
    echo "${hash%% *}"
}

# Prints the same hash for the C library, which also depends on the files that link it.
c_source_hash() {
    source_hash itchsnap_c c/build c/link c/exports.map
}

hash_of_file() {
    local hash
    hash=$(sha256sum "$1")
    echo "${hash%% *}"
}

# Prints the value of a field of release/RECORD, or nothing.
recorded() {
    local name value
    while read -r name value; do
        [ "$name" != "$1" ] || echo "$value"
    done 2>/dev/null <"$top/release/RECORD"
}

# Writes the released form of a built program to standard output: the placeholder for unreleased builds is replaced by the release of
# these sources.
stamped() {
    LC_ALL=C sed "s/$unreleased/release ${2:0:12}/g" "$1"
}

# Whether this machine can run the released program. It needs Linux on x86-64 with the x86-64-v2 instructions, and does not start
# without glibc 2.34.
runs_here() {
    local flags it
    [[ $MACHTYPE == x86_64-*linux* ]] || return 1
    flags=" $(grep -m 1 '^flags' /proc/cpuinfo) "
    for it in cx16 lahf_lm popcnt sse4_1 sse4_2 ssse3; do
        [[ $flags == *" $it "* ]] || return 1
    done
    "$released" --version >/dev/null 2>&1
}

# Whether a file is missing, or older than a source of a crate or of its dependencies.
is_stale() {
    local crates crate_lines
    find_crates "$2"
    [ ! -e "$1" ] || [ -n "$(cd "$top" && find crates.txt "${crates[@]/#/crates/}" -name out -prune -o -type f \
        \( -name '*.rt' -o -name '*.antt' -o -name crates.txt \) -newer "$1" -print -quit)" ]
}
