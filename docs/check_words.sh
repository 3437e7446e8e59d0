#!/usr/bin/env bash
# Looks whether docs/errors.md has each refusal word and each message that the program can write. The words are those of
# crates/worked_runs/data/refusals and data/messages, which the gate compares with the worked runs.
#
#     docs/check_words.sh
set -eu
cd "$(dirname "${BASH_SOURCE[0]}")"
data=../crates/worked_runs/data
missing=0

want() { # a word or a message, and the text that stands for it in the page
    grep -qF -- "$2" errors.md || { echo "errors.md: $1 is missing"; missing=1; }
}

while IFS= read -r word; do
    grep -qE -- "\`refused,LINE,$word[,\`]" errors.md || { echo "errors.md: $word is missing"; missing=1; }
done < "$data/refusals"

while IFS= read -r message; do
    case $message in
        "cannot read"*) want "$message" "\`qcube: cannot read NAME\`" ;;
        ": "*) want "cause ${message#: }" "| \`${message#: }\` |" ;;
        "| "*) want "$message" "\\$message\`" ;;
        *) want "$message" "$message\`" ;;
    esac
done < "$data/messages"
exit $missing
