#!/usr/bin/env bash
# Installs the clients of tests/face.sh from Debian's packages by name: Perl's IPC::SysV, PHP's
# sysvmsg and Python's sysv_ipc. Where packages cannot be reached it says so and fails nothing:
# tests/face.sh leaves out, and counts, each client that is not there.
set -uo pipefail
packages=(perl php-cli python3-sysv-ipc)
if [ "$(id -u)" -ne 0 ] || ! command -v apt-get > /dev/null; then
    echo "face_clients: not installed: ${packages[*]}"
    exit 0
fi
apt() {
    DEBIAN_FRONTEND=noninteractive timeout 180 apt-get -o Acquire::Retries=1 -o Acquire::http::Timeout=20 \
        "$@" > /dev/null 2>&1
}
if apt update \
    && apt install -y "${packages[@]}"; then
    echo "face_clients: installed: ${packages[*]}"
else
    echo "face_clients: PACKAGES CANNOT BE REACHED: ${packages[*]}"
fi
