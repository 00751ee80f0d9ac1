# shellcheck shell=bash disable=SC2154
# Sourced by .ci/checks: the texts of the repository. Only files that git tracks are looked at.

allows_one_handle() {
    [[ $(<HANDLES) == "Handles allowed: Threads." && $(wc -l <HANDLES) == 1 ]]
}

tracks_no_output() {
    ! git ls-files | grep -E '(^|/)out/'
}

keeps_definitions_and_proofs_alone() {
    ! git ls-files 'crates/*/specs/*' 'crates/*/proofs/*' | grep -v '\.antt$'
}

# at most 100 in at most 22 crates, at most 8 in one, and docs/GATE.md says of each such crate why it has them
has_few_edits() {
    local crate count all=0 crates=0 few=true
    for crate in crates/*/; do
        count=$(git ls-files "$crate/must-fail/*.edit" | wc -l)
        ((count > 0)) || continue
        ((all += count, crates += 1))
        if ((count > 8)); then
            echo "$crate has $count must-fail edits, and 8 are allowed"
            few=false
        fi
        if ! grep -q "^| \`$(basename "$crate")\` | [^0-9 ]" docs/GATE.md; then
            echo "docs/GATE.md does not say why $crate has must-fail edits"
            few=false
        fi
    done
    if ((all > 100 || crates > 22)); then
        echo "$all must-fail edits stand in $crates crates, and 100 in 22 are allowed"
        few=false
    fi
    $few
}

# words that only some other text can explain: a capital and a number
has_no_labels() {
    ! git grep -nIE '\b(R[0-9]{1,2}(\.[a-z])?|T[1-5](\.[0-9]+)?|D[0-9]{1,2}|W[0-9]{1,2})\b' -- \
        '*.md' '*.rt' '*.antt' '*.edit' '*.txt' ':!crates/*/data' |
        grep -vE '^[^:]+:[0-9]+:.*(<[A-Z][0-9]|[A-Z][0-9]>|impl<|fn [a-z_]+<)'
}

# no text names a folder of the machine on which it was written
has_no_paths_of_a_machine() {
    ! git grep -nIE '/(work|farm|tmp|root|home|opt)/' -- .
}

has_a_short_readme() {
    local words most=800
    words=$(wc -w <README.md)
    if ((words > most)); then
        echo "README.md has $words words, and $most are allowed"
        return 1
    fi
}

# pages for users say what is so today, and nothing of the workshop
speaks_to_users() {
    ! git grep -nIiE 'processor[ -]minutes?|not used yet|half (the |its )?speed|on (this|a slow) machine' -- \
        README.md docs/EDITORS.md docs/TREEFILE.md docs/MAPTEXT.md
}

check "HANDLES is its one line" allows_one_handle
check "no folder out/ is tracked" tracks_no_output
check "specs/ and proofs/ hold .antt files alone" keeps_definitions_and_proofs_alone
check "there are few must-fail edits, and docs/GATE.md says why" has_few_edits
check "no word looks like a label" has_no_labels
check "no path of a machine is named" has_no_paths_of_a_machine
check "README.md has at most 800 words" has_a_short_readme
check "pages for users hold no words of the workshop" speaks_to_users
check "docs/ARCHITECTURE.md has each crate after what it stands on, and each keeps to its rules" python3 .ci/check_crates.py
check "docs/PROOF.md has the definitions in reading order" python3 .ci/reading_order.py
check "docs/THEOREM.md has the lines of each claim" python3 .ci/theorem_lines.py
check "each name has one meaning" python3 .ci/check_names.py
check "docs/GATE.md has what each crate costs" python3 .ci/gate_table.py
check "pages that are listed are in plain English, and no longer than allowed" python3 .ci/check_voice.py
check "each file that a page names is there" python3 .ci/check_links.py
