#!/usr/bin/env bash
# Sees that commands are there, and installs their Debian packages where they are not.
#   need.sh COMMAND PACKAGE [COMMAND PACKAGE ...]
set -euo pipefail
while [ $# -ge 2 ]; do
    if ! command -v "$1" >/dev/null; then
        echo "installing $2 for $1" >&2
        apt-get install -y "$2" >&2 || { echo "error: $1 is missing, and the package $2 could not be installed" >&2; exit 1; }
    fi
    shift 2
done
