#!/bin/bash
# Counts in crates/*/src the places that docs/DESIGN-PASS.md has a table of, and in proofs/ the answers and lines. Run it at the top of
# a checkout. The patterns find candidates: what of them is no place of the point is said on that page.
echo "1a own enums:"; grep -rnE "^(pub(\(crate\))? )?enum " crates/*/src | wc -l
echo "1b a flag in a Result, or a number for a refusal:"; grep -rnE "Result<bool|Result<[^>]*, u8>|Refused\(u8|RefusedAt\(u8|, number: u8|-> \(u8, u8\)|Ok\(0\)|Err\([0-9]+\)" crates/*/src | wc -l
echo "1c a flag with a value beside:"; grep -rnE "(drafting|ended): bool|serial: u16" crates/*/src | wc -l
echo "2a functions whose name one another in the same crate or a sibling crate has:"; grep -rhoE "^ *(pub(\(crate\))? )?fn [a-z_0-9]+" crates/*/src | sed 's/.*fn //' | sort | uniq -d | wc -l
echo "2b constants whose name another file has:"; grep -rhoE "^(pub(\(crate\))? )?const [A-Z_0-9]+" crates/*/src | sed 's/.*const //' | sort | uniq -c | awk '$1>1{n+=$1} END{print n}'
echo "3 loops by hand:"; grep -rnE "^ *(while|loop)\b|for [a-z_]+ in [^{]*\.\.|[a-z] \+= 1;|wrapping_add\(1\)" crates/*/src | wc -l
echo "4 equality, copying, conversion, printing by hand:"; grep -rnE "fn same|fn same_as|fn (is|are)_[a-z_]+\(.*-> bool|[^a-z]256 \*|% 256|/ 256|/ 65536|_ => false|const NO_|fn name_of|fn complaint|fn heard|write!\(f|copy_from_slice" crates/*/src | wc -l
echo "5a requires:"; grep -rnE "^ *requires" crates/*/src | wc -l
echo "5b words of a fact that three clauses or more have:"; grep -rhoE "^ *requires .*" crates/*/src | sed 's/^ *requires *[a-z_]* *//' | sort | uniq -c | awk '$1>2' | wc -l
echo "6 arrays of a fixed size in fields:"; grep -rnE "^    (pub(\(crate\))? )?[a-z_]+: \[+[A-Za-z0-9]+; " crates/*/src | wc -l
echo "7 a bool that picks a way, a match on a number:"; grep -rnE "every: bool|match (combiner|question|byte|bytes\[)" crates/*/src | wc -l
echo "8 answers:"; cat $(find crates/*/proofs -name Answers.antt) | grep -c "^pub "
echo "8 lines in proofs:"; cat $(find crates/*/proofs -name '*.antt') | wc -l
