#!/bin/sh
# Installs what a machine lacks of the C and Rust side, for gate and `make check`; the proofs need the Rattle kit alone.
set -eu
missing=
for tool in gcc g++ make valgrind python3 cargo chromium; do
    command -v "$tool" >/dev/null || missing="$missing $tool"
done
if [ -n "$missing" ]; then
    if [ "$(id -u)" -ne 0 ]; then
        echo "the tests need these tools, and only root can install them:$missing" >&2
        exit 1
    fi
    apt-get update -qq
    # shellcheck disable=SC2086
    apt-get install -y -qq $missing
fi
# The test of the installation alone wants these two, and says what it leaves out where they cannot be had.
for tool in cmake pkg-config; do
    command -v "$tool" >/dev/null || { apt-get update -qq && apt-get install -y -qq "$tool"; } || true
done
