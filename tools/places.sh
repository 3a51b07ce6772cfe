#!/bin/bash
# Prints the lines of src/ in which a place of each point of docs/DESIGN-PASS.md can stand, and how many they are.
# Not every line is a place: the page says which are, and why the others are not.
cd "$(dirname "$0")/.." || exit 1
show() {
    echo "== $1"
    shift
    grep -nE "$@" crates/*/src/*.rt | tee /tmp/places.$$ | sed 's/^crates\///'
    wc -l </tmp/places.$$
    rm -f /tmp/places.$$
}
show '1 own Option or Result, flags and number codes' -e '-> (bool|u8)\b' -e 'Err\([A-Za-z]+(::[A-Za-z]+)* ?\(' -e 'return Err\((AllocError|[A-Za-z]+Fault::Memory)' -e 'is_err\(\)' -e 'Err\(.*\) => (return )?Err' -e ', 0\)\?|unwrap_or\(0\)' -e '^ +(pub )?(chosen|write): bool' -e 'number: u8' -e 'Ok\([a-z_]+\) => Ok'
show '2 twins: names that stand in more than one place' -e '\bfn (section_len|sib_len|path_len|shift_write|shift_read|is_open|behind|needs|wants|is_wanted|takes|bits_of|network_of|data_pass|configuration_pass|doorway|instrument)\b' -e '(struct|enum) (Next|Plan|Wanted|Stuck|StuckPlace)\b' -e 'if self\.cable_out' -e 'self\.phase else'
show '3 loops that count an index' -e '\bwhile\b' -e '\bfor [a-z_]+ in .*\.\.' -e 'enumerate\(\)' -e '\bfor .* in .*\{' 
show '4 equality, order, conversion, printing by hand' -e '\bas (u8|u16|u32|u64|usize)\b' -e 'impl.* From<' -e 'impl .*Display' -e '[/%] 256' -e '== b' -e 'push\(.[01 ].\)'
show '5 parameters that travel together' -e '(byte|place): usize' -e 'records: &\[Record\], number' -e 'table: &\[Record\], number' -e '(from|to|at): BitPlace' -e 'ensures (len|room|lost|cable)\b' -e 'requires \{ \((1|bottom) '
show '6 buffers with a length, parallel arrays, hand searches, arenas' -e 'settings: &\[Setting\]' -e 'settings\[' -e 'records\[[^]]*\]' -e 'head' -e 'first: usize' -e 'MOST_REPLY'
show '7 switches on which step to run' -e 'latches' -e '\bCall::|CALLS|enum Call\b' -e 'match (statement|command|call)\b'
echo '== 8 proof files, their lines, and their answers'
for c in crates/*/; do
    f=$(find "$c" -path '*/out' -prune -o -path '*/proofs/*.antt' -print)
    [ -z "$f" ] || echo "$(basename "$c"): $(echo "$f" | wc -l) files, $(cat $f | wc -l) lines, $(cat $f | grep -cE '^pub [^ ]+ : goal\.') answers"
done
