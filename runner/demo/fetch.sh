#!/bin/sh
# Fetches a Debian source package and unpacks it as it came from its author. fetch.sh PACKAGE FOLDER
#
# The source lists are made from the machine's own, and apt keeps what it downloads in FOLDER: nothing else is touched.
set -eu
package=$1 folder=$2
[ ! -d "$folder/$package" ] || exit 0
mkdir -p "$folder/apt/parts" "$folder/apt/lists/partial" "$folder/new"
folder=$(cd "$folder" && pwd)
for list in /etc/apt/sources.list /etc/apt/sources.list.d/*.list /etc/apt/sources.list.d/*.sources; do
    [ -f "$list" ] || continue
    case $list in
    *.sources) sed 's/^Types:.*/Types: deb-src/' "$list" ;;
    *) sed -n 's/^deb /deb-src /p' "$list" ;;
    esac > "$folder/apt/parts/$(basename "$list" .list | sed 's/[^a-z.]/_/g').${list##*.}"
done
private() {
    apt-get -qq -o Dir::Etc::sourcelist=/dev/null -o "Dir::Etc::sourceparts=$folder/apt/parts" \
        -o "Dir::State::lists=$folder/apt/lists" -o APT::Sandbox::User=root "$@"
}
[ -f "$folder/apt/updated" ] || private update
touch "$folder/apt/updated"
cd "$folder/new"
rm -rf ./*
private source --download-only "$package"
tar xf ./*.orig.tar.*
mv "$(find . -mindepth 1 -maxdepth 1 -type d)" "$folder/$package"
rm -rf "$folder/new"
