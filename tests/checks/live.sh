# Mode live, in which lanes and edits meet in any order: what no order can change is what serial prints, and the rest
# is audited by the program and by tests/audit.py: each asks whether a report is that of a legal record.
# shellcheck shell=bash disable=SC2154

# Without live commands one capture has one order, so live prints what serial prints, byte for byte. So it does over
# several captures where nothing asks the states.
: >"$work/wanted"
: >"$work/got"
for number in {1..60}; do
    rm -rf made && mkdir made && "$tests/generate.py" "$number" made
    mapfile -t words <made/words
    (
        cd made || exit
        sed -i '/^live$/,$d' script
        if ((${#words[@]} > 2)) && [[ ${words[*]} != --journal* || ${#words[@]} -gt 3 ]]; then
            sed -i '/keep-state\|check-state\| limit /d' script
        fi
        { echo "$number" && replay_whole serial "${words[@]}"; } >>"$work/wanted"
        { echo "$number" && replay_whole live "${words[@]}"; } >>"$work/got"
    )
done
same live_is_serial_where_no_order_matters

# Short runs with live edits and states: the status is that of serial, each section that no order changes is serial's,
# and the whole report is legal.
whatever_order() { grep -E '^(end|fault|refused|list|rules|table|editions|disabled|journal) ' | sed 's/^journal .*/journal/'; }
: >"$work/wanted"
: >"$work/got"
for number in {201..400}; do
    rm -rf made && mkdir made && "$tests/generate.py" "$number" made
    mapfile -t words < <(grep -v '^--journal$' made/words)
    (
        cd made || exit
        sed -i '/^after /d' script
        timeout 100 "$program" serial --journal "${words[@]}" >serial
        { echo "$number status $?" && whatever_order <serial && printf 'audit yes\naudit yes\n'; } >>"$work/wanted"
        timeout 100 "$program" live --journal "${words[@]}" >live
        { echo "$number status $?" && whatever_order <live && "$program" audit live "${words[@]}" && "$tests/audit.py" live "${words[@]}"; } >>"$work/got"
    )
done
same live_reports_are_legal
