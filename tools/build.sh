# Proves and builds the program and the C library from the current sources. For scripts that have sourced tools/release.sh.

# Reports on standard error how long proving may take: as long as last time on this machine, if that is known.
say_how_long() {
    local seconds
    if read -r seconds 2>/dev/null <"$(dirname "$built")/seconds"; then
        echo "took $((seconds / 60)) min $((seconds % 60)) s the last time" >&2
    else
        echo "takes an hour or two on four cores" >&2
    fi
}

# Runs a command silently, and shows its output only if it fails.
quietly() {
    local log status=0
    log=$(mktemp)
    "$@" >"$log" 2>&1 </dev/null || status=$?
    [ "$status" -eq 0 ] || cat "$log" >&2
    rm -f "$log"
    return "$status"
}

# Proves each crate in turn and builds the program.
prove_and_build() {
    local crates number=0 crate verb begin=$SECONDS
    find_crates itch_tool
    for crate in "${crates[@]}"; do
        number=$((number + 1))
        echo "itchsnap: proving $crate ($number of ${#crates[@]}), $(((SECONDS - begin) / 60)) min so far .." >&2
        verb=(lib)
        [ "$crate" != itch_tool ] || verb=(run -- --help)
        (cd "$top/crates/$crate" && quietly rt "${verb[@]}") || exit 1
    done
    touch "$built"
    echo "$((SECONDS - begin))" >"$(dirname "$built")/seconds"
}

# Builds the program if it is out of date, and reports the reason on standard error. If two processes build at once, the second
# waits for the first.
build() {
    local why=$1
    if ! is_stale "$built" itch_tool; then
        return
    fi
    if ! command -v rt >/dev/null; then
        echo "itchsnap: $why. Proving and building it needs the Rattle toolchain: there is no command rt on the path" >&2
        exit 1
    fi
    exec 9<"$top/crates.txt"
    flock 9
    if is_stale "$built" itch_tool; then
        echo -n "itchsnap: $why. Proving and building it " >&2
        say_how_long
        prove_and_build
    fi
    exec 9<&-
}

# Sets `program` to the released program if it fits the sources and runs on this machine, otherwise to the built one.
choose_program() {
    program=$released
    if [ "$(recorded sources)" != "$(source_hash itch_tool)" ]; then
        program=$built
        build "the sources are not those of the released program"
    elif ! runs_here; then
        program=$built
        build "the released program does not run on this machine"
    fi
}

# Sets `libraries` to the directory of the released C library if it fits the sources, otherwise to that of the built one.
choose_libraries() {
    libraries=$top/release
    if [ "$(recorded c-sources)" != "$(c_source_hash)" ]; then
        libraries=$top/c/out
        "$top/c/build" || exit 1
    fi
}
