#!/bin/sh
# Builds the stand-in library into rust/mock/dist. It is for testing the tests only.
set -eu
cd "$(dirname "$0")"
cargo build --offline --release --quiet
rm -rf dist
mkdir dist
cp target/release/libezumokarin.so dist/
# One object that shows only the C functions: its copy of Rust's own library must not
# meet the one of the program that it is linked into.
ld -r --force-group-allocation --whole-archive target/release/libezumokarin.a -o dist/all.o
objcopy --wildcard --keep-global-symbol='ezk_*' \
    --remove-section=.llvmbc --remove-section=.llvmcmd dist/all.o
ar rcs dist/libezumokarin.a dist/all.o
rm dist/all.o
echo "stand-in library in $(pwd)/dist"
