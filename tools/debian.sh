# Builds the three Debian packages. For tools/pack, which has set `room`, `out` and `version` and sourced tools/layout.sh.

maintainer="Sundrekk maintainers <maintainers@users.noreply.sundrekk.example>"
triplet=x86_64-linux-gnu

# Begins a package and sets `prefix` to where its files go.
begin() {
    package=$1
    prefix=$room/$package/usr
    home=/usr
    lib=lib/$triplet
    zsh=share/zsh/vendor-completions
    mkdir -p "$room/$package/DEBIAN"
}

# Prints a changelog in Debian's format.
changelog() {
    echo "itchsnap ($version) unstable; urgency=medium"
    echo
    echo "  * See CHANGELOG.md in the sources."
    echo
    echo " -- $maintainer  $(date -u -R -d "@$SOURCE_DATE_EPOCH")"
}

# Prints the MD5 sums of a package's files in the format that dpkg checks.
sums() {
    (cd "$room/$package" && find usr -type f -print0 | sort -z | xargs -0 md5sum)
}

# Prints the installed size as dpkg defines it, independent of the file system: each file in kilobytes, rounded up, and 1 for anything else.
kilobytes() {
    find "$room/$package/usr" -printf '%y %s\n' | awk '{ sum += $1 == "f" ? int(($2 + 1023) / 1024) : 1 } END { print sum }'
}

# Prints a package's control file. Arguments: section, dependencies, description and, optionally, the Multi-Arch value.
control() {
    echo "Package: $package"
    echo "Source: itchsnap"
    echo "Version: $version"
    echo "Architecture: amd64"
    echo "Maintainer: $maintainer"
    echo "Installed-Size: $(kilobytes)"
    echo "Depends: $2"
    echo "Section: $1"
    echo "Priority: optional"
    [ -z "$4" ] || echo "Multi-Arch: $4"
    echo "Description: $3"
}

# Finishes a package: adds the files that every package contains, and builds the archive.
finish() {
    local doc=share/doc/$package
    put 644 "$doc/copyright" cat "$top/LICENSE"
    put 644 "$doc/changelog.gz" eval 'changelog | gzip -9n'
    control "$@" >"$room/$package/DEBIAN/control"
    sums >"$room/$package/DEBIAN/md5sums"
    dpkg-deb --root-owner-group --threads-max=1 -Zxz --build "$room/$package" "$out/${package}_${version}_amd64.deb" >/dev/null
}

# The manual page is compressed, as Debian requires. The program is not stripped, so its bytes are still those that were compared with the
# proved build.
pack_program() {
    begin itchsnap
    lay_program
    gzip -9n "$prefix/share/man/man1/itchsnap.1"
    lay_service
    put 644 share/lintian/overrides/itchsnap echo "itchsnap: unstripped-binary-or-object [usr/bin/itchsnap]"
    finish net "libc6 (>= 2.34)" "market snapshots for Nasdaq TotalView-ITCH 5.0
 itchsnap turns a day file of an ITCH feed into the messages that rebuild the
 current market. It checks and compares day files, prints order books, and
 serves snapshots to those who join a feed late. Its code is proved." foreign
}

pack_shared() {
    begin libitchsnap0
    lay_shared
    echo "libitchsnap 0 libitchsnap0 (>= $version)" >"$room/$package/DEBIAN/shlibs"
    echo "activate-noawait ldconfig" >"$room/$package/DEBIAN/triggers"
    finish libs "libc6 (>= 2.14)" "market snapshots for ITCH 5.0 - shared library
 Markets, snapshots, joiners and sessions for programs in C, C++ and other
 languages. Its code is proved.
 .
 This package contains the shared library." same
}

pack_development() {
    begin libitchsnap-dev
    lay_development
    finish libdevel "libitchsnap0 (= $version), libc6-dev" "market snapshots for ITCH 5.0 - development files
 Markets, snapshots, joiners and sessions for programs in C, C++ and other
 languages. Its code is proved.
 .
 This package contains the header, the static library, and the files for pkg-config
 and CMake." same
}

pack_debian() {
    pack_program
    pack_shared
    pack_development
}
