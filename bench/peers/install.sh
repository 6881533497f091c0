#!/bin/sh
# Installs what bench/ measures against, as Debian's packages, and builds those that are libraries
# into bench/peers/bin. Run as root on Debian 12.
set -e
cd "$(dirname "$0")"
apt-get update -qq
apt-get install -y -qq ripgrep ugrep busybox time gcc cargo libhyperscan-dev librust-aho-corasick-dev librust-memchr-dev
mkdir -p bin
gcc -O3 -o bin/hyperscan hyperscan.c -lhs -lpthread
gcc -O3 -o bin/serve serve.c -lhs -lpthread
gcc -O2 -o bin/load load.c -lpthread
cd automaton
cargo build --release --offline --quiet
cp target/release/automaton ../bin/
