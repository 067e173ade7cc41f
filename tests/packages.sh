#!/usr/bin/env bash
# The Debian packages of `make deb`: installed into a folder as into an empty machine, used from there, and removed again.
set -uo pipefail
cd "$(dirname "${BASH_SOURCE[0]}")/.." || exit 2
. tests/tools.sh

if ! need_toolchain || ! need pkg-config pkg-config || ! need dpkg-deb dpkg || ! need fakeroot fakeroot; then
    echo "0 passed, 1 failed"
    exit 1
fi
place=$(mktemp -d) || exit 2
trap 'rm -rf "$place"' EXIT
mkdir -p "$place/var/lib/dpkg"/{info,updates,triggers}
: >"$place/var/lib/dpkg/status"
debs=target/$ARCH/deb
library=usr/lib/$ARCH-linux-gnu

# in_place WORDS...: dpkg on that machine. It has no C library, and its user need not be root.
in_place() { fakeroot dpkg --root="$place" --log=/dev/null --force-depends --force-architecture --force-not-root "$@"; }

installed() {
    in_place --install "$debs"/ballastwren_*.deb "$debs"/libballastwren-dev_*.deb &&
        in_place --verify && (cd "$place" && ls usr/bin/ballastwren "$library"/libballastwren.{a,so} "$library"/pkgconfig/ballastwren.pc)
}

# shellcheck disable=SC2086  # RUN is empty or a command with its options
scrubbed() {
    $RUN "$place/usr/bin/ballastwren" scrub --sheet samples/sheets/rack.sheet samples/packs/incident.pack "$place/out.pack" &&
        $RUN "$place/usr/bin/ballastwren" check "$place/out.pack"
}

# compiled MODULE: a controller over what the packages brought, and nothing else of it.
compiled() {
    local words
    mapfile -t words < <(PKG_CONFIG_SYSROOT_DIR=$place PKG_CONFIG_LIBDIR=$place/$library/pkgconfig PKG_CONFIG_ALLOW_SYSTEM_CFLAGS=1 \
        PKG_CONFIG_ALLOW_SYSTEM_LIBS=1 pkg-config --cflags --libs "$1" | xargs -n 1 printf '%s\n')
    "$CC" -o "$place/$1" examples/controller.c "${words[@]}" &&
        LD_LIBRARY_PATH=$place/$library $RUN "$place/$1" samples/sheets/rack.sheet samples/packs/incident.pack
}

removed() {
    in_place --purge libballastwren-dev ballastwren && [[ -z $(find "$place/usr" ! -type d) ]]
}

check "make deb" make -s deb ARCH="$ARCH" CC="$CC"
check "the packages are installed" installed
check "the command of the package scrubs a pack" scrubbed
for module in ballastwren ballastwren-static; do
    check "a controller is compiled over the package, by pkg-config $module" compiled "$module"
done
check "the packages are removed, and leave no file" removed
finish
