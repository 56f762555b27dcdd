#!/bin/sh
# Formats our files one by one from standard input, so that rustfmt follows no `mod` line:
# `cargo fmt` would reach, and rewrite, the documents that are taken by path.
set -e
cd "$(dirname "$0")"
for file in build.rs $(find src model/src -name '*.rs'); do
    rustfmt --edition 2024 --config-path rustfmt.toml < "$file" > target/formatted.rs
    cmp -s target/formatted.rs "$file" || cp target/formatted.rs "$file"
done
