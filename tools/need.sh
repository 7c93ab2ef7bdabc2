#!/bin/sh
# Usage: need.sh COMMAND PACKAGE. Installs a Debian package where its command is missing, which takes root.
set -eu
command -v "$1" >/dev/null && exit
export DEBIAN_FRONTEND=noninteractive
apt-get update -qq >/dev/null || true
apt-get install -y -qq "$2" >/dev/null
