# Sourced by the scripts beside it, with the names of some crates in `crates`. It makes a temporary workspace with copies of
# these, without their wrong bodies, in `work`, which goes away at the end; `top` is the repository.
set -eu

top=$(cd "$(dirname "$0")/.." && pwd)
work=$(mktemp -d)
trap 'rm -rf "$work"' EXIT

for crate in $crates; do
    mkdir -p "$work/crates/$crate"
    for part in src specs proofs; do
        cp -r "$top/crates/$crate/$part" "$work/crates/$crate/"
    done
    grep "^$crate:" "$top/crates.txt" >> "$work/crates.txt"
done
