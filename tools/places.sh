#!/bin/sh
# Prints, of a commit (the checkout's HEAD if none is given), the lines of crates/*/src in which the older forms show, by
# point of docs/DESIGN-PASS.md. A line printed is a candidate; the page says which of them are places.
commit=${1:-HEAD}
find_lines() {
    git grep -nE "$1" "$commit" -- 'crates/*/src/*.rt' | sed "s/^$commit:crates\///" | grep -v ':ghost use'
}
count() {
    echo "== $1: $(printf '%s' "$2" | grep -c .)"
    if [ -n "$2" ]; then printf '%s\n' "$2"; fi
}
count '1 own enums' "$(find_lines '^(pub(\(crate\))? )?enum ')"
count '1 flags, and zero for none' "$(find_lines '^ +(pub )?[a-z_]+: bool,|return 0;|else \{ 0 \}|_ => 0,|\(_\) => 0,|None => 0,|\b(w|end|seen) == 0')"
count '1 numbers for kinds' "$(find_lines 'kind: u8|kind == |kind != |code: u8|number: u8|[0-9] => (Some\()?NodeKind')"
count '2 names that stand more than once' "$(git grep -hoE 'fn [a-z_0-9]+' "$commit" -- 'crates/*/src/*.rt' | sort | uniq -c | awk '$1 > 1 {print $3, $1}')"
count '2 blank records written out' "$(find_lines '(NodeRecord|AttrRecord|LinkedNode|Under|Passes|Pass|Trimmed) \{$')"
count '3 loops' "$(find_lines '^ +(while|for|loop)\b.*\{')"
count '4 casts' "$(find_lines ' as (u8|u16|u32|u64|usize|i32|i64|i128|char)\b')"
count '4 functions that compare, convert or print' "$(find_lines 'fn (is|same|is_of|is_among|widen|kind_with|code|from_code|or_else|byte_at|one_if|one_if_long|hex_digit|lower|digit|is_letter|is_tail|starts|strip|u16_at|u32_at|kind_word|refusal_text|header_text|shown|exceeds|same_link|in_range|through_slash)\b')"
count '5 facts of a node or a part' "$(find_lines '^ +(requires|ensures)[^{]*\{.*(has_in|has) \(?(P|Self)?\.?(Page\.)?\(?P?\.?tree|^ +(requires|ensures)[^{]*\{ ?is_some \(part_of|^ +(requires|ensures).*has \(P\.tree|^ +(requires|ensures).*has_in \(')"
count '5 a page, a node and a part as parameters' "$(find_lines 'fn .*n: usize, part: Part')"
count '6 arrays, and lengths and places beside buffers' "$(find_lines '\[[a-z0-9]+; [0-9]+\]|\blen: usize|used: Used|out: &mut \[u8\], at: usize')"
count '7 switches on a step, closures, dyn' "$(find_lines 'Charset::|impl Fn|Fn[A-Za-z]*\(|dyn |\bfn\(')"
