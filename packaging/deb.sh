#!/usr/bin/env bash
# Makes the Debian packages of what is built: deb.sh ARCH, after `make command`. `ballastwren` has the command and the shared
# library that programs run with, `libballastwren-dev` what they are compiled with. They are left in target/ARCH/deb.
set -euo pipefail
cd "$(dirname "${BASH_SOURCE[0]}")/.."
arch=$1
case $arch in
x86_64) debian=amd64 ;;
aarch64) debian=arm64 ;;
*) echo "deb.sh: no Debian name is known for $arch" >&2; exit 2 ;;
esac
triple=$arch-linux-gnu
version=$(sed -n 's/^.define BW_VERSION "\(.*\)"$/\1/p' include/ballastwren.h)
maintainer='Ballastwren maintainers <maintainers@users.noreply.ballastwren.example>'
out=target/$arch/deb
work=$out/work
strip=strip
[[ $arch == "$(uname -m)" ]] || strip=$triple-strip
for tool in dpkg-deb fakeroot gzip "$strip"; do
    command -v "$tool" >/dev/null || { echo "deb.sh: there is no $tool" >&2; exit 1; }
done

# Times in a package are those of the sources, so that the same sources make the same package.
SOURCE_DATE_EPOCH=${SOURCE_DATE_EPOCH:-$(git log -1 --format=%ct 2>/dev/null || stat -c %Y CHANGELOG.md)}
export SOURCE_DATE_EPOCH

# moved PACKAGE PATH...: hands what was installed below /usr to a package.
moved() {
    local package=$1 path
    shift
    for path; do
        mkdir -p "$work/$package/usr/$(dirname "$path")"
        mv "$work/all/usr/"$path "$work/$package/usr/$(dirname "$path")"
    done
}

# documents PACKAGE: its licence and changes, where Debian looks for them.
documents() {
    local folder=$work/$1/usr/share/doc/$1
    mkdir -p "$folder"
    install -m 644 LICENSE "$folder/copyright"
    gzip -9n <CHANGELOG.md >"$folder/NEWS.gz"
    printf 'ballastwren (%s) unstable; urgency=medium\n\n  * NEWS.gz says what has changed.\n\n -- %s  %s\n' \
        "$version" "$maintainer" "$(date -u -R -d "@$SOURCE_DATE_EPOCH")" | gzip -9n >"$folder/changelog.gz"
}

# package PACKAGE SECTION DEPENDS TEXT: what dpkg is told of it, and the package.
package() {
    local folder=$work/$1
    mkdir -p "$folder/DEBIAN"
    documents "$1"
    (cd "$folder" && find usr -type f -print0 | sort -z | xargs -0 md5sum >DEBIAN/md5sums)
    cat >"$folder/DEBIAN/control" <<LINES
Package: $1
Version: $version
Architecture: $debian
Section: $2
Priority: optional
Depends: $3
Installed-Size: $(du -sk "$folder/usr" | cut -f 1)
Maintainer: $maintainer
Description: $4
LINES
    chmod -R u=rwX,go=rX "$folder"
    fakeroot dpkg-deb --root-owner-group --build "$folder" "$out/${1}_${version}_$debian.deb"
}

rm -rf "$out"
mkdir -p "$work"
make -s install ARCH="$arch" DESTDIR="$work/all" PREFIX=/usr LIBDIR="lib/$triple"
library=lib/$triple
"$strip" --strip-unneeded "$work/all/usr/bin/ballastwren" "$work/all/usr/$library/libballastwren.so.$version" "$work/all/usr/$library/libballastwren.a"
gzip -9n "$work/all/usr/share/man/man1/ballastwren.1"
libc=$(readelf -W -V "$work/all/usr/bin/ballastwren" | grep -oE 'GLIBC_[0-9.]+' | sed 's/GLIBC_//' | sort -Vu | tail -n 1)
moved ballastwren bin share "$library/libballastwren.so.*"
moved libballastwren-dev include "$library"

# The loader's list is made anew, and packages of programs over the library find what they depend on.
mkdir "$work/ballastwren/DEBIAN"
echo 'activate-noawait ldconfig' >"$work/ballastwren/DEBIAN/triggers"
echo "libballastwren ${version%.*} ballastwren (>= $version)" >"$work/ballastwren/DEBIAN/shlibs"
package ballastwren sound "libc6 (>= $libc)" 'scrubber and reader of ST 2109 audio-metadata packs
 Reads, checks, lists and scrubs SMPTE ST 2109 audio-metadata packs by a keep
 sheet, looks labels up in a main and a backup pack, reads and writes Dolby PMD
 values, and keeps a live table of the objects in them: the command, and the
 shared library. What they promise of packs, values and tables is proved.'
package libballastwren-dev libdevel "ballastwren (= $version)" 'ST 2109 audio-metadata packs and PMD values from C
 Header, archive and pkg-config files of the library for SMPTE ST 2109
 audio-metadata packs and Dolby PMD values. No function takes memory, keeps a
 state or asks anything of the bytes that it is given.'
rm -rf "$work"
