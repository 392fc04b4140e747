#!/bin/sh
# Lists the places that the design pass looks at (docs/DESIGN-PASS.md), in the sources of a commit or, with no argument, as they stand:
#   sh tools/places.sh [COMMIT]
# Each list is a set of candidates with its count; the page says which of them are places.
commit=$1

candidates() {
    title=$1
    pattern=$2
    files=${3:-crates/*/src/*.rt}
    lines=$(git grep -nE "$pattern" $commit -- "$files" | sed "s/^$commit://")
    echo "== $title: $(printf '%s' "$lines" | grep -c .)"
    printf '%s\n' "$lines"
}

# the pairs of places that share four lines or more; the tool reads .rs, so it gets copies under that ending
alike() {
    folder=$(mktemp -d)
    git archive "${commit:-HEAD}" crates | tar -x -C "$folder"
    find "$folder" -type f ! -path '*/src/*.rt' -delete
    find "$folder" -name '*.rt' -exec sh -c 'mv "$1" "${1%.rt}.rs"' _ {} ';'
    echo '== 2 pairs of places of the same shape'
    duplicates --repo "$folder" --min-lines 4 --most 200
    rm -r "$folder"
}

candidates '1 enums' '^ *(pub )?enum '
candidates '1 numbers and flags as answers' '\) -> u8( \{)?$|[(]bool, |\(u8, usize, usize\)'
candidates '1 arms that hand None or an error on' '^ *(None|Err\([_a-z]*\)) =>'
candidates '1 branches that answer an error or None' '^ *(None|Err\([A-Za-z:]+( \{.*\})?\))$'
alike
candidates '3 loops' "^ *('[a-z]+: )?(for|while|loop)\\b"
candidates '4 comparisons by hand' '=> (true|false),?$|joined\(\) <=? |== b.[a-z]'
candidates '4 conversions by hand' 'fn (of|[a-z]+_of|of_[a-z]+|flag_number|[a-z]+_values|whole|joined|split|date_number|number_in|name_in|at)\b'
candidates '5 what functions require' '^ *requires '
candidates '5 parameters side by side' 'day: u32,|micros: u64|at: usize'
candidates '6 lengths beside buffers' '^ *(pub )?(len|held|count|at): (usize|u64|u32),|\[[A-Za-z0-9]+; ?[A-Z0-9_]+\]'
candidates '7 switches on a step or a kind' 'match (part|kind|self\.part|most)\b|const [A-Z]+: \[.*\] = \['
candidates '8 answers' '^(abbrev )?pub [^ ]+ : goal\.' 'crates/*/proofs/*Answers.antt'
candidates '8 lemmas of several crates' '^(pub )?(never|by_bool|never_true) :' 'crates/*/proofs/*.antt'
