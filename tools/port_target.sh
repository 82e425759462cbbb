#!/usr/bin/env bash
# The kit's port.py goes round a folder named target. This brings crates/target over under another name, and back.
# Run at the top, once, before port.py has changed anything else, or with the older sources given as $1.
set -eu
older=${1:-.}
work=$(mktemp -d)
mkdir "$work/crates"
for crate in target format mode class_rows target_parts target_asked target_words joining laws; do
    cp -r "$older/crates/$crate" "$work/crates/"
done
mv "$work/crates/target" "$work/crates/zzt"
find "$work/crates" -type f -exec sed -i 's/·target·/·zzt·/g; s/·target\./·zzt./g' {} +
grep -E '^(target|format|mode|class_rows|target_parts|target_asked|target_words|joining|laws):' "$older/crates.txt" | sed 's/^target:/zzt:/' >"$work/crates.txt"
(cd "$work" && git init -q . && git add -A && git -c user.name=port -c user.email= commit -qm before && python3 "$(dirname "$(rt doc)")/port/port.py")
for folder in src specs proofs; do
    rm -rf "crates/target/$folder"
    cp -r "$work/crates/zzt/$folder" "crates/target/$folder"
done
grep -rl zzt crates/target | xargs sed -i 's/Rattle\.zzt\./Rattle.target./g; s/Rattle·zzt/Rattle.target/g; s/\bzzt::/target::/g'
rm -rf "$work"
