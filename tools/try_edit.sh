#!/usr/bin/env bash
# Tries some must-fail edits of one crate, also such as do not stand in must-fail/ yet.
#
#   try_edit.sh CRATE            all edits of crates/CRATE/must-fail
#   try_edit.sh CRATE EDIT..     these alone: a label (NAME of NAME.edit), or a file NAME.edit that lies anywhere
#   try_edit.sh --self-test
#
# `rt must-fail CRATE` tries all edits of a crate that have changed. Here it runs in a copy of the repository that has the
# wanted edits alone; rt begins there with what checks in other copies on this machine kept. The crate itself is checked
# first, since a refusal shows nothing where the crate is not proved without the edit. rt keeps no log of an edit: it tells
# the first refusal, and that stands for it here. Exit status 0: each edit is refused.
set -euo pipefail
cd "$(dirname "${BASH_SOURCE[0]}")/.."
root=$PWD

tools/need_rt.sh
[ -n "${MMU_LOCKED:-}" ] || exec tools/locked.sh tools/try_edit.sh "$@"

work=$(mktemp -d)
trap 'rm -rf "$work"' EXIT

# edit_file CRATE EDIT: the file of a label, or the file itself.
edit_file() {
    case $2 in
    *.edit) echo "$2" ;;
    *) echo "crates/$1/must-fail/$2.edit" ;;
    esac
}

# copy_with CRATE FILE..: the repository in $work/tree with these edits alone.
copy_with() {
    local crate=$1
    shift
    rm -rf "$work/tree"
    mkdir "$work/tree"
    tar -C "$root" --exclude='crates/*/out' --exclude='crates/*/must-fail' -cf - crates crates.txt | tar -C "$work/tree" -xf -
    mkdir "$work/tree/crates/$crate/must-fail"
    cp "$@" "$work/tree/crates/$crate/must-fail"
}

try_edits() {
    local crate=$1 file files=() status=0
    shift
    for file in "$@"; do
        file=$(edit_file "$crate" "$file")
        [ -f "$file" ] || { echo "try_edit.sh: there is no edit $file" >&2; return 2; }
        files+=("$file")
    done
    copy_with "$crate" "${files[@]}"
    if ! (cd "$work/tree/crates/$crate" && rt check) > "$work/check" 2>&1; then
        tail -n 20 "$work/check" >&2
        echo "try_edit.sh: $crate is not proved without an edit" >&2
        return 2
    fi
    (cd "$work/tree" && rt must-fail "$crate") > "$work/told" 2>&1 || status=$?
    cat "$work/told"
    return "$status"
}

# An edit of the lowest crate is refused, a changed comment is not, and a label that does not exist is told.
self_test() {
    local crate=words edits source comment
    edits=("crates/$crate"/must-fail/*.edit)
    try_edits "$crate" "$(basename "${edits[0]}" .edit)" > "$work/first" || { cat "$work/first"; exit 1; }
    [ "$(grep -c 'must-fail .*: refused, as it must be' "$work/first")" = 1 ] || { cat "$work/first"; exit 1; }
    source=$(find "crates/$crate/specs" -name '*.antt' | sort | head -n 1)
    comment=$(grep '^-- ' "$source" | sort | uniq -u | head -n 1)
    printf 'file: specs/%s\nold: %s\nnew: %s, again\n' "$(basename "$source")" "$comment" "$comment" > "$work/comment.edit"
    if try_edits "$crate" "$work/comment.edit" > "$work/second"; then
        echo "try_edit.sh: a changed comment counts as refused"
        exit 1
    fi
    grep -q 'NOT REFUSED' "$work/second" || { cat "$work/second"; exit 1; }
    if try_edits "$crate" no_such_edit 2> "$work/third"; then
        echo "try_edit.sh: an edit that does not exist counts as refused"
        exit 1
    fi
    echo "self test: one edit alone is refused, a changed comment is not, a missing edit is told"
}

case ${1:-} in
--self-test) self_test ;;
'' | -*) sed -n '2,6p' "$0" | cut -c 3- && exit 2 ;;
*)
    crate=$1
    shift
    if [ $# -gt 0 ]; then
        try_edits "$crate" "$@"
    else
        try_edits "$crate" "crates/$crate"/must-fail/*.edit | tee "$work/all"
        python3 tools/check_refusals.py --log "$work/all" "$crate"
    fi
    ;;
esac
