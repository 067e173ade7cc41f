# shellcheck shell=bash
# Sourced by the scripts beside it, from the root of the tree: what compiles and runs programs that link the archive,
# which packages they need, and the count of checks.
#
#   ARCH     the processor to test for; by default this machine's
#   ARCHIVE  the archive under test         CC, CXX  compilers for ARCH
#   RUN      what runs programs for ARCH; empty on such a machine
#
# Each may be set by the caller. Programs for another processor than the machine's are cross-compiled and run under an
# emulator.

# emulator ARCH: what runs programs for a processor; nothing for this machine's own.
emulator() { [[ $1 == "$(uname -m)" ]] || echo "qemu-$1 -L /usr/$1-linux-gnu"; }

: "${ARCH:=$(uname -m)}"
: "${ARCHIVE:=$PWD/target/$ARCH/lib/libballastwren.a}"
: "${RUN=$(emulator "$ARCH")}"
if [[ $ARCH == "$(uname -m)" ]]; then
    : "${CC:=gcc}" "${CXX:=g++}"
else
    : "${CC:=$ARCH-linux-gnu-gcc}" "${CXX:=$ARCH-linux-gnu-g++}"
fi
export ARCH ARCHIVE CC CXX RUN

# install_package PACKAGE: installs a Debian package, quietly.
install_package() {
    local root=()
    [[ $(id -u) == 0 ]] || root=(sudo)
    echo "installing $1"
    local install=("${root[@]}" env DEBIAN_FRONTEND=noninteractive apt-get install -qq -y --no-install-recommends "$1")
    "${install[@]}" >/dev/null 2>&1 || { "${root[@]}" apt-get update -qq && "${install[@]}" >/dev/null; }
}

# need COMMAND PACKAGE: installs the package if its command is missing.
need() {
    command -v "$1" >/dev/null || install_package "$2"
    command -v "$1" >/dev/null && return
    echo "$1 is missing and the Debian package $2 could not be installed: please install it by hand"
    return 1
}

# need_compilers: what compiles and runs programs over the archive.
need_compilers() {
    case $CC in
    *-linux-gnu-gcc) need "$CC" "gcc-${ARCH//_/-}-linux-gnu" && need "$CXX" "g++-${ARCH//_/-}-linux-gnu" ;;
    *) need "$CC" gcc && need "$CXX" g++ ;;
    esac || return
    if [[ $RUN ]]; then need "${RUN%% *}" qemu-user; fi
}

# need_toolchain: these, and the archive itself.
need_toolchain() {
    need_compilers || return
    [[ -f $ARCHIVE ]] || { echo "no archive at $ARCHIVE: make lib"; return 1; }
}

passed=0 failed=0

# check NAME COMMAND...: one check, one line, and what the command printed if it failed.
check() {
    local name=$1 said
    shift
    if said=$("$@" 2>&1); then
        echo "ok      $name"
        passed=$((passed + 1))
    else
        printf 'FAILED  %s\n%s\n' "$name" "$said"
        failed=$((failed + 1))
    fi
}

# tallied COMMAND...: a program that ends with its own 'N passed, M failed'; its lines, but for that, and its counts.
tallied() {
    local said status sum
    said=$("$@" 2>&1)
    status=$?
    sum=$(tail -n 1 <<<"$said")
    sed '$d' <<<"$said"
    if [[ $sum =~ ^([0-9]+)\ passed,\ ([0-9]+)\ failed$ && ($status -eq 0 || ${BASH_REMATCH[2]} -gt 0) ]]; then
        passed=$((passed + BASH_REMATCH[1])) failed=$((failed + BASH_REMATCH[2]))
    else
        printf '%s\nFAILED  %s: status %s\n' "$sum" "$*" "$status"
        failed=$((failed + 1))
    fi
}

# finish: the count as the last line, and the status.
finish() {
    echo "$passed passed, $failed failed"
    [[ $failed -eq 0 ]]
}
