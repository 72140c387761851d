# Places the files of the product under a prefix, for ./install and for the packages. For scripts that have sourced tools/release.sh and set
# `prefix`; `program`, the program's path; `libraries`, the directory of the C library; and `version`, such as 0.1.0.

# Where libraries and zsh completions go, relative to the prefix.
lib=lib
zsh=share/zsh/site-functions
# The prefix written into the pkg-config file. It differs from `prefix` when packages are built in one directory and installed in another.
home=

# Writes the output of a command to a path under the prefix. Writes a new file and renames it, so a running program is never modified in place.
put() {
    local mode=$1 to=$prefix/$2
    shift 2
    if ! { mkdir -p "$(dirname "$to")" && "$@" >"$to.new" && chmod "$mode" "$to.new" && mv -f "$to.new" "$to"; } 2>/dev/null; then
        echo "${0##*/}: cannot write $to" >&2
        exit 1
    fi
    placed "$to"
}

# Creates a link at a path under the prefix.
put_link() {
    local to=$prefix/$1
    if ! ln -sfn "$2" "$to" 2>/dev/null; then
        echo "${0##*/}: cannot write $to" >&2
        exit 1
    fi
    placed "$to"
}

# Called with the path of each installed file. Does nothing by default.
placed() {
    :
}

# Fills the directories and the version into a template.
filled() {
    sed -e "s|@PREFIX@|${home:-$prefix}|" -e "s|@LIB@|$lib|" -e "s|@VERSION@|$version|g" -e "s|@UP@|$(sed 's|[^/]*|..|g' <<<"$lib")|" "$1"
}

# The program, its manual page, and completions for three shells.
lay_program() {
    put 755 bin/itchsnap cat "$program"
    put 644 share/man/man1/itchsnap.1 cat "$top/docs/itchsnap.1"
    put 644 share/bash-completion/completions/itchsnap "$program" completions bash
    put 644 "$zsh/_itchsnap" "$program" completions zsh
    put 644 share/fish/vendor_completions.d/itchsnap.fish "$program" completions fish
}

# The shared library, under the name that programs load.
lay_shared() {
    put 644 "$lib/libitchsnap.so.0" cat "$libraries/libitchsnap.so"
}

# The files needed to compile programs: the header, the static library, and the files for pkg-config and CMake.
lay_development() {
    put 644 include/itchsnap.h cat "$top/c/itchsnap.h"
    put 644 "$lib/libitchsnap.a" cat "$libraries/libitchsnap.a"
    put_link "$lib/libitchsnap.so" libitchsnap.so.0
    put 644 "$lib/pkgconfig/itchsnap.pc" filled "$top/c/itchsnap.pc.in"
    put 644 "$lib/cmake/itchsnap/itchsnap-config.cmake" filled "$top/c/itchsnap-config.cmake.in"
    put 644 "$lib/cmake/itchsnap/itchsnap-config-version.cmake" filled "$top/c/itchsnap-config-version.cmake.in"
}

# The operator's page and the files of deploy/: the unit and its user go where systemd looks for them under /usr and /usr/local, the rest are
# examples.
lay_service() {
    local it
    put 644 "lib/systemd/system/itchsnap-live@.service" cat "$top/deploy/itchsnap-live@.service"
    put 644 lib/sysusers.d/itchsnap.conf cat "$top/deploy/itchsnap.sysusers"
    put 644 share/doc/itchsnap/OPERATING.md cat "$top/docs/OPERATING.md"
    for it in itchsnap-live.env itchsnap.rules.yml prometheus.yml; do
        put 644 "share/doc/itchsnap/examples/$it" cat "$top/deploy/$it"
    done
}
