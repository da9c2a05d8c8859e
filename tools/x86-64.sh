# What the scripts share that build C programs over the library. Sourced at the repository's top, with
# `me` set to the script's name.
#
#   say, die, have, have_header   a message; a message and the end; whether a command or a header is here
#   install WHY PACKAGE...        installs Debian packages, after saying so
#   library                       sets archive, and makes it if it is not there or older than the crates
#   have_x86_64, x86_64           sets cc, alone and emulator: the C compiler for x86-64, its option for a
#                                 program that needs no shared library here, and what runs it
#   have_libcrypto, libcrypto     sets crypto_cflags and crypto_libs: OpenSSL for x86-64
#
# have_x86_64 and have_libcrypto return 1 where something is missing; x86_64 and libcrypto install it.
#
# The library is for x86-64. Elsewhere programs over it are compiled with Debian's cross compiler and
# run under Debian's qemu-user. No foreign package is installed: amd64 packages are only unpacked, into
# $X86_64_ROOT (target/x86-64 where that is not set).

say() { echo "$me: $*" >&2; }
die() {
    say "$@"
    exit 2
}
have() { command -v "$1" >/dev/null 2>&1; }

# have_header COMPILER HEADER [OPTION...]
have_header() {
    compiler=$1 header=$2
    shift 2
    echo "#include <$header>" | "$compiler" "$@" -E -x c - >/dev/null 2>&1
}

apt_install() {
    $as_root env DEBIAN_FRONTEND=noninteractive \
        apt-get install -qq -y --no-install-recommends "$@" >"$apt_log" 2>&1
}

install() {
    why=$1
    shift
    have apt-get || die "missing for $why: what Debian calls $*. There is no apt-get here:" \
        "install it in this machine's own way, then run this again."
    as_root=
    if [ "$(id -u)" -ne 0 ]; then
        have sudo || die "missing for $why: the Debian packages $*. As root: apt-get install $*"
        as_root=sudo
    fi
    say "missing for $why: the Debian packages $*. Installing them with apt-get now."
    apt_log=$(mktemp)
    # The lists of packages may be old, or not there at all.
    apt_install "$@" || { $as_root apt-get update -qq >/dev/null 2>&1 && apt_install "$@"; } || {
        cat "$apt_log" >&2
        rm -f "$apt_log"
        die "apt-get could not install $*"
    }
    rm -f "$apt_log"
}

library() {
    archive=target/staticlib/libdesk_c.a
    if [ -f "$archive" ]; then
        newer=$(find crates crates.txt -name out -prune -o -type f -newer "$archive" -print | head -n 1)
        [ -n "$newer" ] || return 0
    fi
    have rt || die "$archive is missing or old, and the Rattle kit's command rt that makes it is not on the PATH"
    say "making $archive with 'rt lib' in crates/desk_c_c, which proves first what is not proved yet"
    said=$(tools/progress lib desk_c_c) || {
        printf '%s\n' "$said" >&2
        die "'rt lib' in crates/desk_c_c failed"
    }
    mkdir -p "${archive%/*}"
    cp crates/desk_c_c/out/libdesk_c_c.a "$archive" || die "'rt lib' in crates/desk_c_c made no archive"
}

have_x86_64() {
    if [ "$(uname -m)" = x86_64 ]; then
        cc=${CC:-cc} alone='' emulator=''
    else
        cc=x86_64-linux-gnu-gcc alone=-static emulator=qemu-x86_64
        have "$emulator" || return 1
    fi
    have "$cc" && have_header "$cc" stdio.h
}

x86_64() {
    have_x86_64 && return
    if [ "$(uname -m)" = x86_64 ]; then
        install "building C programs" gcc libc6-dev
    else
        install "building and running programs for x86-64" \
            gcc-x86-64-linux-gnu libc6-dev-amd64-cross qemu-user
    fi
    have_x86_64 || die "there is still no C compiler for x86-64 that works"
}

have_libcrypto() {
    have_x86_64 || return 1
    if [ "$(uname -m)" = x86_64 ]; then
        crypto_cflags='' crypto_libs=-lcrypto
        have_header "$cc" openssl/ocsp.h
        return
    fi
    root=${X86_64_ROOT:-target/x86-64}
    [ -f "$root/.whole" ] || return 1
    # The program finds the cross compiler's C library and this libcrypto by itself.
    libc=$(cd "$(dirname "$("$cc" -print-file-name=libc.so.6)")" && pwd)
    unpacked=$root/usr/lib/x86_64-linux-gnu
    crypto_cflags="-I$root/usr/include -I$root/usr/include/x86_64-linux-gnu"
    crypto_libs="-L$unpacked -lcrypto -Wl,-rpath,$libc:$unpacked"
    crypto_libs="$crypto_libs -Wl,--dynamic-linker,$libc/ld-linux-x86-64.so.2"
}

libcrypto() {
    x86_64
    have_libcrypto && return
    if [ "$(uname -m)" = x86_64 ]; then
        install "building with OpenSSL's libcrypto" libssl-dev
    else
        unpack_amd64 libssl-dev
    fi
    have_libcrypto || die "there is still no libcrypto for x86-64"
}

# apt with lists of its own, of amd64 packages alone: the system's lists stay as they are.
apt_amd64() {
    command=$1
    shift
    "$command" -qq -o APT::Architecture=amd64 -o APT::Architectures=amd64 \
        -o APT::Sandbox::User="$(id -un)" -o Acquire::Languages=none \
        -o Dir::State::Lists="$apt_home/lists" -o Dir::State::Status=/dev/null \
        -o Dir::Cache="$apt_home/cache" "$@"
}

# Unpacks amd64 packages into $root, and with a -dev package the library that it is for.
unpack_amd64() {
    have apt-get || die "missing: Debian's amd64 packages $*, and there is no apt-get here to fetch them"
    say "fetching Debian's amd64 packages $*, with the libraries they are for, into $root." \
        "They are not installed."
    rm -rf "$root"
    mkdir -p "$root/.apt/lists/partial" "$root/.apt/cache/archives/partial" "$root/.apt/deb"
    apt_home=$(cd "$root/.apt" && pwd)
    apt_amd64 apt-get update >/dev/null || die "apt-get could not fetch the list of amd64 packages"
    for package in "$@"; do
        runtime=
        case $package in *-dev)
            runtime=$(apt_amd64 apt-cache depends "$package" |
                sed -n "s/^ *Depends: \(${package%-dev}[0-9][0-9a-z]*\)\$/\1/p") ;;
        esac
        (cd "$apt_home/deb" && apt_amd64 apt-get download "$package" $runtime) >/dev/null ||
            die "apt-get could not fetch $package $runtime for amd64"
    done
    for deb in "$apt_home"/deb/*.deb; do
        dpkg-deb -x "$deb" "$root"
    done
    rm -rf "$apt_home"
    : >"$root/.whole"
}
