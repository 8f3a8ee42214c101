#!/usr/bin/env bash
# fetch.sh OUT PACKAGE: has one file of Debian's package in OUT, which it downloads once; nothing is installed.
set -euo pipefail
cd "$1"
download() {
  apt-get download -qq -o APT::Sandbox::User=root "$1"
}
compgen -G "${2}_*.deb" > /dev/null || download "$2" || { apt-get update -qq && download "$2"; }
