# For the scripts beside this: packages of Debian through a private source list under target/qemu/apt, made from the
# machine's own lists, so that neither the machine's lists nor its apt state are changed.
top=$(cd "$(dirname "${BASH_SOURCE[0]}")/../.." && pwd)
out=$top/target/qemu
lists=$out/apt

private_apt() {
    apt-get -qq -o Dir::Etc::SourceList=/dev/null -o Dir::Etc::SourceParts="$lists/parts" \
        -o Dir::State::Lists="$lists/lists" -o Dir::Cache="$lists/cache" -o APT::Sandbox::User="$(id -un)" "$@"
}

# The lists are read once; a machine that is used for months removes target/qemu/apt to read them anew.
open_lists() {
    [ ! -e "$lists/read" ] || return 0
    mkdir -p "$lists/parts" "$lists/lists/partial" "$lists/cache/archives/partial"
    python3 "$top/integrations/qemu/source_list.py" > "$lists/parts/private.sources"
    private_apt update
    touch "$lists/read"
}

# unpack_package NAME FOLDER: a binary package's files in a folder, without installing it.
unpack_package() {
    [ ! -e "$2" ] || return 0
    open_lists
    rm -rf "$lists/package" && mkdir -p "$lists/package"
    (cd "$lists/package" && private_apt download "$1")
    dpkg-deb -x "$lists/package/$1"_*.deb "$2.part"
    dpkg-deb -f "$lists/package/$1"_*.deb Version > "$2.version"
    mv "$2.part" "$2"
    rm -rf "$lists/package"
}

# need PACKAGE..: installs what the machine lacks, or says so where that is not allowed.
need() {
    local missing=""
    for package in "$@"; do
        dpkg-query -W -f '${Status}' "$package" 2>/dev/null | grep -q 'install ok installed' \
            || missing="$missing $package"
    done
    [ -n "$missing" ] || return 0
    [ "$(id -u)" = 0 ] || { echo "packages to install first:$missing" >&2; exit 1; }
    apt-get update -qq
    # shellcheck disable=SC2086
    DEBIAN_FRONTEND=noninteractive apt-get -o DPkg::Lock::Timeout=300 install -y -qq --no-install-recommends \
        $missing >/dev/null
}

# room MEGABYTES: ends where the disk is too small.
room() {
    mkdir -p "$out"
    local free
    free=$(($(df -Pk "$out" | awk 'NR == 2 {print $4}') / 1024))
    [ "$free" -ge "$1" ] || { echo "$free MB are free, $1 MB are needed" >&2; exit 1; }
}
