#!/bin/sh
# Prints the lines of the crates' sources that each point of docs/DESIGN-PASS.md is counted by. Run at the top of the repository.
#   tools/places.sh          all points        tools/places.sh 3      one point
cd "$(dirname "$0")/.." || exit 1
src() { git ls-files 'crates/*/src/*.rt' | grep -v '/tests'; }
say() { echo "== $1"; }
find_in() { src | xargs grep -nE "$1" | grep -vE '^[^:]+:[0-9]+: *(//|ghost use|use )'; }
point() {
    case $1 in
    1)  say '1a own enums';                          find_in '\benum '
        say '1b an Option inside a Result';           find_in 'Result<Option<'
        say '1c a number for a kind';                 find_in '\b(number|code): u(8|32)\b|const [A-Z_]+: u(8|32) = [0-9]+;'
        say '1d a flag passed on';                    find_in '\b[a-z_]+: bool\b'
        say '1e filled by the callee, beside an answer'; find_in '&mut \[?(Word|u8|u32).*-> Result<\(\), Refusal>' ;;
    2)  say '2 places that share six lines or more (read as .rs, since the tool passes over .rt)'
        tmp=$(mktemp -d); src | while read -r f; do mkdir -p "$tmp/$(dirname "$f")"; cp "$f" "$tmp/${f%.rt}.rs"; done
        duplicates --repo "$tmp" --most 200 --min-lines 6; rm -rf "$tmp" ;;
    3)  say '3a while, loop';                         find_in '\b(while|loop)\b'
        say '3b for over a range of numbers';         find_in '\bfor .* in [^{]*\.\.'
        say '3c other for';                           find_in '\bfor .* in ' | grep -v '\.\.'
        say '3d arrays made by index';                find_in 'from_fn\(' ;;
    4)  say '4a conversions';                         find_in 'fn (of|of_[a-z]+|number|outcome_number|[a-z_]*_of|byte_at)\b'
        say '4b printing';                            find_in 'fn (push_[a-z_]+|[a-z]+_text|last_digit)\b'
        say '4c reading digits, equality, suffixes';  find_in 'fn (hex_digit|digit_in|is|field_is|without_[a-z]+)\b'
        say '4d an order by hand';                    find_in '\bis_at_most\(&self'
        say '4e a field that is compared on its own'; find_in 'self\.[a-z]+ [<=]=? (0|other)' ;;
    5)  say '5a clauses that stand three times or more'
        src | xargs grep -hoE '(requires|ensures)[^{]*\{.*\}' | sed -E 's/^(requires|ensures)[ a-z_]*//' | sort | uniq -c | sort -rn | awk '$1 > 2'
        say '5b parts of clauses, those that stood three times or more among them'
        src | xargs grep -hE '^ *(requires|ensures)' | grep -oE 'burst R[^)]*reading\.now|OnOk result \(out\.new\.items ≡ out\.old\.items|IfOk result \(λ [a-z]+\. option_map vec_items|word_bits \* message_words ≤ places|place < places|InOrder \([^)]*\)' | sort | uniq -c | sort -rn
        say '5c parameters that travel together';     find_in '(heap: Global.*out: &mut Vec|bits.*code: Code|code: Code.*bits)' ;;
    6)  say '6a arrays and counts in fields';         find_in '^    (pub )?[a-z_]+: (\[|Option<|usize|Vec<)'
        say '6b a count beside a buffer';             find_in 'let mut at = |&mut buf\[' ;;
    7)  say '7a matches on a name or a state';        find_in 'if (is|field_is)\(|Carried::|match carried'
        say '7b function values';                     find_in '\b(Fn|FnMut|FnOnce|dyn|fn)\(' ;;
    8)  say '8 proof files: answers, goals answered, lines; lemmas of our own, lines'
        git ls-files 'crates/*/proofs/*Answers.antt' | wc -l
        git ls-files 'crates/*/proofs/*Answers.antt' | xargs grep -hE '^pub [^ ]+ : goal\.' | wc -l
        git ls-files 'crates/*/proofs/*Answers.antt' | xargs cat | wc -l
        git ls-files 'crates/*/proofs/*.antt' | grep -vE 'Answers|Invariants' | xargs grep -hE '^ *(pub )?[^ =]+ : ' | wc -l
        git ls-files 'crates/*/proofs/*.antt' | grep -vE 'Answers|Invariants' | xargs cat | wc -l ;;
    esac
}
if [ $# -gt 0 ]; then for p in "$@"; do point "$p"; done; else for p in 1 2 3 4 5 6 7 8; do point $p; done; fi
