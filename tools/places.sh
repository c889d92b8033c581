#!/bin/sh
# The places that docs/DESIGN-PASS.md counts, a list for each of its points: sh tools/places.sh [FOLDER]
cd "${1:-$(dirname "$0")/..}" || exit 1

places() {
    printf '\n== %s: %s\n' "$1" "$(printf '%s' "$2" | grep -c .)"
    printf '%s\n' "$2"
}
in_src() { grep -rnE --include='*.rt' "$1" crates/*/src | sed 's/: */: /' | sort; }

places '1, enums' "$(in_src '^(pub )?enum ')"
places '1, bool fields' "$(in_src '^ +(pub )?[a-z_0-9]+: bool,')"
places '1, values that are read, each beside what says whether it is one' "$(in_src 'struct [A-Za-z]+Read ')"
places '1, numbers for kinds or refusals' "$(in_src '^ *(pub )?number: u32,|^pub const [A-Z_]+: u32 = 0|^pub const (HOMED|FAILED)|\b(leg|route|phase): u32,|^ *match (number|kind) \{|number: usize|(trade|expected)_row\(')"
places '1, a place past the end, or 0, for none' "$(in_src 'where none does|0 where there is none|0 of any other|0 where nothing|0 where the line gets none')"
places '2, functions whose names differ in digits alone, or stand in two crates' "$(
    grep -rnoE --include='*.rt' '\bfn [a-z_0-9]+' crates/*/src | grep -v '/main.rt' | awk -F'fn ' '
        { name = $2; bare = name; gsub(/[0-9]+/, "", bare); split($0, part, "/"); crate = part[2]
          line[NR] = $0; key[NR] = bare; if (!((bare, crate, name) in seen)) { seen[bare, crate, name] = 1; many[bare]++ } }
        END { for (i = 1; i <= NR; i++) if (many[key[i]] > 1) print key[i] "  " line[i] }' | sort)"
places '3, loops' "$(in_src '^ *(while|loop)\b|for \w+ in [^{]*\.\.')"
places '4, equality, conversion and printing by hand' "$(in_src 'fn (same|in_state|is_mode|state_number|ordinal|number|verdict_number|state_of|mode_of|switches|switch_bits|limit_set|expected_row|trade_row|trade_word|stop_word|weigh|weight|lesser|capped|glyph|digits|decimal|hexadecimal|whole|named_decimal|named_whole|nth|digit)\b')"
places '5, clauses of a requires that stand more than once' "$(grep -rhoE --include='*.rt' 'requires [a-z_]*[ ]*\{.*\}' crates/*/src | sed -E 's/requires [a-z_]* ?\{ (.*) \}/\1/; s/ × /\n/g' | tr -d '()' | sort | uniq -c | awk '$1 > 1')"
places '5, functions of six parameters and more' "$(
    cat crates/*/src/*.rt | tr '\n' ' ' | grep -oE '\bfn [a-z_0-9]+(<[^(]*>)?\([^)]*\)' | awk -F: 'NF > 6' | sed 's/  */ /g')"
places '6, a buffer with a place or a length beside it' "$(in_src 'out: &mut \[u8\], *at: usize|out: &mut \[u8\]|line: &mut \[u8\]|from: usize|\[u32; 14\]|length: usize')"
places '7, a switch on which step to run' "$(in_src 'match number \{|: fn\(|\bdyn ')"
printf '\n== 8, proofs: '
find crates/*/proofs -name '*.antt' | xargs cat | wc -l
