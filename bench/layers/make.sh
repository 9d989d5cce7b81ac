#!/bin/bash
# Makes the program `plain` in this folder, from plain.rs beside this file.
set -eu
rustc --edition 2021 -O -o plain "$(dirname "$0")/plain.rs"
