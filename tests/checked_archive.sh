#!/usr/bin/env bash
# Builds target/fuzz/libwagonplan.a: the calls as `rt lib` builds them, from the same proved module, but with the compiler's
# assumptions checked (tools/checked_module.py), address checks and libFuzzer's coverage. The kit is seen through a folder of links, in which
# its compiler is a script that adds these. (bin/rt finds the kit by its own place, so it and what it reads there are copied.)
set -eu
cd "$(dirname "$0")/.."
kit=$(dirname "$(rt doc)") links=$(mktemp -d) bin=toolchain/bin
trap 'rm -rf "$links"' EXIT # outside the tree, in which rt refuses links
mkdir -p "$links/$bin" "$links/bin" target/log target/fuzz
cp "$kit/bin/rt" "$kit/bin/rtlib.py" "$links/bin/"
cat >"$links/$bin/clang" <<SCRIPT
#!/usr/bin/env bash
set -eu
words=()
for word; do
    if [[ \$word == *.bc ]]; then
        "$kit/$bin/clang" -O0 -Xclang -disable-llvm-passes -S -emit-llvm -x ir "\$word" -o "\$word.ll"
        "$PWD/tools/checked_module.py" "$PWD"/crates/*/out/rlib/*.rlib/toolchain/mir.json "$kit"/rlibs/{core,std,std_alloc}.rlib/toolchain/mir.json <"\$word.ll" >"\$word.checked.ll" 2>"$PWD/target/log/checked-module.txt" ||
            { cat "$PWD/target/log/checked-module.txt" >&2; exit 1; }
        word=\$word.checked.ll
    fi
    words+=("\$word")
done
exec "$kit/$bin/clang" "\${words[@]}" -Wno-unused-command-line-argument -fsanitize=address -fsanitize-coverage=inline-8bit-counters,pc-table,trace-cmp
SCRIPT
chmod +x "$links/$bin/clang"
for folder in . bin toolchain "$bin"; do
    for there in "$kit/$folder"/*; do [ -e "$links/$folder/${there##*/}" ] || ln -s "$there" "$links/$folder/"; done
done
rm -f target/log/checked-module.txt
made=crates/exports/out/libexports.a
[ ! -f "$made" ] || mv "$made" target/fuzz/plain.a
(cd crates/exports && "$links/bin/rt" lib) >target/log/checked-exports.txt 2>&1 || { tail -n 20 target/log/checked-exports.txt; exit 1; }
grep '^checked: ' target/log/checked-module.txt
mv "$made" target/fuzz/libwagonplan.a
[ ! -f target/fuzz/plain.a ] || mv target/fuzz/plain.a "$made"
