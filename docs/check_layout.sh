#!/usr/bin/env bash
# Lists lines that are too long: over 100 columns in `.rt` files, but for imports and for the texts of test crates, and over 140 in
# `.antt` files. Lists imports of another crate's lemmas that pass by its module CallerLemmas, too. The status is 1 if it lists any.
#
#     docs/check_layout.sh
set -u
cd "$(dirname "${BASH_SOURCE[0]}")/.."
export LC_ALL=C.UTF-8

long_code() {
    git ls-files 'crates/*/src/*.rt' | grep -vE '^crates/([a-z]+_tests|worked_runs|tree_records)/' |
        xargs grep -nHE '^.{101,}$' | grep -vE ':[0-9]+: *(ghost )?(pub )?use '
}
long_proofs() {
    git ls-files 'crates/*.antt' | xargs grep -nHE '^.{141,}$'
}
past_the_door() {
    git ls-files 'crates/*.antt' 'crates/*.rt' |
        xargs grep -nHoE '(Rattle\.[a-z_]+\.proofs\.|[a-z_]+::proofs::)[A-Z][A-Za-z]*' |
        while IFS= read -r line; do
            crate=${line#crates/}
            crate=${crate%%/*}
            from=$(sed -E 's/.*[: ](Rattle\.)?([a-z_]+)(\.|::)proofs.*/\2/' <<< "$line")
            [ -d "crates/$from" ] || continue
            [ "$from" = "$crate" ] || case $line in *CallerLemmas) ;; *) echo "$line" ;; esac
        done
}

found=$(long_code; long_proofs; past_the_door)
[ -z "$found" ] || { printf '%s\n' "$found"; exit 1; }
