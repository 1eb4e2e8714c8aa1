#!/usr/bin/env bash
# Counts the places of docs/DESIGN-PASS.md's points in crates/*/src, as that page says.
cd "${1:-.}" || exit 1
src() { grep -rhE "$@" crates/*/src --include=*.rt | grep -vE '^\s*//'; }
echo "1a own enums like Option or Result: $(src '^\s+(Refused\(u8\)|Short),$' | wc -l)"
echo "1b a number beside a value: $(src '^\s+pub number: u8' | wc -l)"
echo "1c functions that answer a refusal's number, exports to C apart: $(grep -rlE . crates/*/src --include=*.rt | xargs perl -0ne 'while(/^(#\[unsafe\(no_mangle\)\]\n)?(?:pub )?(?:extern "C" )?fn (\w+)[^{]*?-> u8\b/mg){ next if $1; $n=$2; print "$n\n" if $n =~ /number|refusal|judged|each_pin|version_pins|answer_record|lift_solution|dual_variables|pack_signs|block_search|checked_|qubo_binary|^sweep$/ }' | wc -l)"
echo "1d returned literal numbers of refusals: $(src 'return (1[1-9]|2[0-8]|3[123]);' | wc -l)"
echo "3a while loops: $(src '^\s*while ' | wc -l)"
echo "3b for loops: $(src '^\s*for ' | wc -l)"
echo "5a functions that take count, rows, cols, values: $(grep -rlE . crates/*/src --include=*.rt | xargs perl -0ne 'while(/fn \w+(?:<[^>]*>)?\(([^{]*?)\)(?: ->|\n|\s*\{)/g){$p=$1; print "x\n" if $p =~ /\w*count: usize,\s*\w*rows: &\[u16\],\s*\w*cols: &\[u16\],\s*\w*values: &\[i64\]/}' | wc -l)"
echo "5b of these with n and c too: $(grep -rlE . crates/*/src --include=*.rt | xargs perl -0ne 'while(/fn \w+(?:<[^>]*>)?\(([^{]*?)\)(?: ->|\n|\s*\{)/g){$p=$1; print "x\n" if $p =~ /n: usize,\s*count: usize,\s*rows: &\[u16\],\s*cols: &\[u16\],\s*values: &\[i64\],\s*c: &\[i64\]/}' | wc -l)"
echo "5c functions that take cols and values of doubles: $(grep -rlE . crates/*/src --include=*.rt | xargs perl -0ne 'while(/fn \w+(?:<[^>]*>)?\(([^{]*?)\)(?: ->|\n|\s*\{)/g){$p=$1; print "x\n" if $p =~ /cols: &\[u16\],\s*values: &\[f64\]/}' | wc -l)"
echo "5d clauses with Lent: $(src '\bLent ' | grep -v 'ghost use' | wc -l); ColumnsWithin: $(src '\bColumnsWithin ' | grep -v 'ghost use' | wc -l); Shaped, RowFits, ObjFits: $(src '\b(Shaped|RowFits|ObjFits) ' | grep -v 'ghost use' | wc -l)"
echo "6a arrays of full size with a count beside: $(src 'let mut \w+(: [^=]+)? = (\[|room::)' | wc -l)"
echo "7a match: $(src '\bmatch ' | wc -l)"
echo "8a proof files: $(find crates/*/proofs -name '*.antt' | wc -l), lines: $(find crates/*/proofs -name '*.antt' -exec cat {} + | wc -l)"
