# Audits of reports, by the program and by tests/audit.py, a second reading of docs/RULES.md: both say yes to what the
# program prints with the journal, and both name the same first line of reports of which one digit, word or line was
# changed.
# shellcheck shell=bash disable=SC2154

# audits WORD..: what the program and the second reading say of a report beside a script and captures.
audits() { "$program" audit "$@" && "$tests/audit.py" "$@"; }

# The examples, in both modes where no `after` stands in the script.
: >"$work/wanted"
: >"$work/got"
while read -r mode words; do
    printf '%s %s\naudit yes\naudit yes\n' "$mode" "$words" >>"$work/wanted"
    (
        cd "$top" || exit
        echo "$mode $words"
        read -r -a words <<<"$words"
        timeout 100 "$program" "$mode" --journal "${words[@]}" >"$work/report"
        audits "$work/report" "${words[@]}"
    ) >>"$work/got"
done <<'WORDS'
serial examples/first/rules out:em0:examples/first/session.pcap
live examples/first/rules out:em0:examples/first/session.pcap
serial examples/sets/rules out:em0:examples/first/session.pcap
live examples/sets/rules out:em0:examples/first/session.pcap
serial examples/edit/rules out:em0:examples/first/session.pcap
live examples/edit/rules out:em0:examples/first/session.pcap
serial examples/states/rules out:em0:examples/first/session.pcap in:em0:examples/states/received.pcap
WORDS
same audit_accepts_the_examples

# Generated scripts and captures, and five changes of each report.
: >"$work/wanted"
: >"$work/got"
for number in {1..60}; do
    rm -rf made && mkdir made && "$tests/generate.py" "$number" made
    mapfile -t words < <(grep -v '^--journal$' made/words)
    (
        cd made || exit
        timeout 100 "$program" serial --journal "${words[@]}" >report
        printf '%s\naudit yes\nstatus 0\n' "$number" >>"$work/wanted"
        { echo "$number" && "$program" audit report "${words[@]}"; echo "status $?"; } >>"$work/got"
        for change in {1..5}; do
            "$tests/change_report.py" $((5 * number + change)) <report >changed
            { echo "$number $change" && "$tests/audit.py" changed "${words[@]}"; echo "status $?"; } >>"$work/wanted"
            { echo "$number $change" && "$program" audit changed "${words[@]}"; echo "status $?"; } >>"$work/got"
        done
    )
done
same audits_find_what_was_changed

# A report with lines of caches isn't audited: the first of them has none of the forms, whatever hits it tells.
: >"$work/wanted"
: >"$work/got"
for hits in 0 1 99; do
    (
        cd "$top" || exit
        words=(examples/first/rules out:em0:examples/first/session.pcap)
        timeout 100 "$program" serial --journal --cache 8 "${words[@]}" | sed -E "s/^(cache 1 hits) .*/\1 $hits/" >"$work/report"
        line=$(awk '/^cache 1 hits / { print NR }' "$work/report")
        printf '%s\naudit no line %s\naudit no line %s\n' "$hits" "$line" "$line" >>"$work/wanted"
        { echo "$hits"; "$program" audit "$work/report" "${words[@]}"; "$tests/audit.py" "$work/report" "${words[@]}"; } >>"$work/got"
    )
done
same audit_refuses_lines_of_caches
