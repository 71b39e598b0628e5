#!/bin/sh
# sync.sh FROM TO: TO's tree becomes FROM's, but for .git, target and carry
set -eu
cd "$2"; find . -mindepth 1 -maxdepth 1 ! -name .git ! -name target ! -name carry -exec rm -rf {} +
cd "$1"; tar c --exclude=./.git --exclude=./target --exclude=./carry --exclude=./oracle/target --exclude=./bindings/rust/target . | tar x -C "$2"
