# Sourced by the benches. Sets `root`, the top of the repository, and `work`, a scratch folder that is deleted at the end;
# copies the named crates there, with their lines of crates.txt, and goes into it.
scratch() {
    root=$(cd "$here/../.." && pwd)
    work=$(mktemp -d)
    trap 'rm -rf "$work"' EXIT
    mkdir "$work/crates"
    cp "$root/HANDLES" "$work/"
    for crate in "$@"; do
        mkdir "$work/crates/$crate"
        for part in src specs proofs; do
            if [ -d "$root/crates/$crate/$part" ]; then cp -r "$root/crates/$crate/$part" "$work/crates/$crate/"; fi
        done
        grep -E "^$crate\b" "$root/crates.txt" >> "$work/crates.txt"
    done
    cd "$work"
}

# The named crates and all of this repository below them.
needed() {
    python3 - "$here/../../crates.txt" "$@" << 'PY'
import sys
lines = [line.partition("#")[0].partition(":") for line in open(sys.argv[1])]
below = {head.split()[0]: words.split() for head, _, words in lines if head.split()}
found, left = [], sys.argv[2:]
while left:
    crate = left.pop()
    if crate in below and crate not in found:
        found.append(crate)
        left += below[crate]
print(*sorted(found))
PY
}

# Builds and runs a program of the scratch folder; its first output goes to a file.
built() {
    (cd "crates/$1" && rt fmt > log.txt && rt run > "$2" 2>> log.txt) || { tail -40 "crates/$1/log.txt"; exit 1; }
}
