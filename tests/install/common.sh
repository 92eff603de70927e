# What the tests of the installation share: a temporary folder with a prefix in it, and an environment in which pkg-config finds nothing else.
# shellcheck shell=sh
set -eu
cd "$(dirname "$0")/../.."
work=$(mktemp -d)
trap 'rm -rf "$work"' EXIT
prefix="$work/a prefix" # with a space
unset DESTDIR CARGO_BUILD_TARGET PEZVORAN_LIB_DIR PKG_CONFIG PKG_CONFIG_PATH PKG_CONFIG_SYSROOT_DIR
export PKG_CONFIG_LIBDIR="$prefix/lib/pkgconfig"

fail() {
    echo "tests/install: $*" >&2
    exit 1
}

# must_print STATUS LINES COMMAND...: the command ends with this status and prints these lines
must_print() {
    status=$1
    lines=$2
    shift 2
    ended=0
    printed=$("$@") || ended=$?
    [ $ended = "$status" ] || fail "$* ended with $ended, not $status"
    [ "$printed" = "$lines" ] || fail "$* printed
$printed
not
$lines"
}

# must_say STATUS WORDS COMMAND...: the command ends with this status, and these words are among what it says on standard error
must_say() {
    status=$1
    words=$2
    shift 2
    ended=0
    "$@" > "$work/printed" 2> "$work/said" || ended=$?
    [ $ended = "$status" ] || fail "$* ended with $ended, not $status, and said: $(cat "$work/said")"
    grep -Fq -- "$words" "$work/said" || fail "$* should say: $words; it said: $(cat "$work/said")"
}

# here FOLDER: all that is in a folder, with what the files hold
here() {
    (cd "$1" && find . | LC_ALL=C sort && find . -type f -exec sha256sum {} + | LC_ALL=C sort)
}

# stated EXAMPLE: the lines that an example says it prints
stated() {
    sed -n 's/^# prints: //p' "$1"
}
