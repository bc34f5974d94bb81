#!/bin/sh
# Counts the places of docs/DESIGN-PASS.md's points in src/ of every crate. Run it at the top of a checkout.
# It counts what can be told by a pattern; the page says what was found by reading.
all() { cat crates/*/src/*.rt; }
lines() { all | grep -cE "$1"; }
words() { all | grep -oE "$1" | wc -l; }
echo "1 own enums of the shape of Option or Result      $(lines '^(pub )?enum (Answer|Dot|Solve)\b')"
echo "1 their variants, named                           $(words '\b(Answer|Dot|Solve)::[A-Z][a-z]+')"
echo "1 early returns by hand                           $(lines 'number\(\) != 0 \{')"
echo "1 a flag or an answer beside a value, types       $(lines '^pub struct (Hex|Inverse[123]|Seen)\b')"
echo "1 a number that stands for no place               $(lines 'NO_PLACE|\.is_place\(\)')"
echo "1 refusals as numbers, parameters and fields      $(lines '\bnumber: u32')"
echo "1 calls as numbers, parameters                    $(lines '\bcall: usize')"
echo "2 functions named for N                           $(lines '^ *(pub )?fn [a-z_0-9]*_[123]\(')"
echo "2 types named for N                               $(lines '^(pub )?(struct|enum) [A-Za-z]+[123]\b')"
echo "2 N chosen at run time                            $(lines 'match (dim|v\.len\(\)|u\.len\(\)) \{')"
echo "3 loops that count by hand                        $(lines '^ *while ')"
echo "4 private casts, lesser and greater by hand       $(lines '^fn (wide|wide_mark|wide_level|half_wide|lesser|greater|greater_level|is_head|of_bytes|are_same)\(')"
echo "5 functions that take offsets and columns         $(all | tr '\n' ' ' | grep -oE 'fn [a-z_0-9]+(<[^>]*>)?\([^)]*offsets: &(mut )?\[u(32|8)\], +columns: &(mut )?\[u(32|8)\]' | wc -l)"
echo "6 a text with a count beside it, types            $(lines 'struct Text\b')"
echo "7 switches on a call or an operation              $(lines 'match (op|call|kind|rule|second|self) \{')"
echo "8 answers written in proofs                       $(find crates/*/proofs -name Answers.antt | xargs cat | grep -cE '^pub ')"
echo "8 answer files                                    $(find crates/*/proofs -name Answers.antt | wc -l)"
