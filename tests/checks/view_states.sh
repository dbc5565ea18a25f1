# Live states on the pages of report_view, by the script behind a report: each count beside that of tests/live_states.py,
# which goes over the states second by second; and a journal that isn't the script's, by its first such line.
# shellcheck shell=bash disable=SC2154

view=$(dirname "$program")/report_view
states=$top/examples/states
if [[ -x $view ]]; then
    # The example, with the option in each place and form.
    {
        for words in "--script $states/rules $states/expected" "--script=$states/rules $states/expected" \
            "$states/expected --script $states/rules" "--script $states/rules -- $states/expected"; do
            read -r -a words <<<"$words"
            "$view" page "${words[@]}" >"$work/page" && python3 "$tests/page.py" --script "$states/rules" "$work/page" "$states/expected"
        done
        "$view" page --script "$states/rules" "$states/expected" "$states/expected" >"$work/page" &&
            python3 "$tests/page.py" --script "$states/rules" "$work/page" "$states/expected" 0 0 320
    } >"$work/got" 2>&1
    : >"$work/wanted"
    same live_states_of_the_example

    # Generated scripts and captures, also with seconds that lie far apart, so that a column has several; and three
    # changes of each journal. Changes by which a text is no report any more are passed over.
    : >"$work/wanted"
    : >"$work/got"
    for number in {1..24}; do
        rm -rf made && mkdir made && "$tests/generate.py" "$number" made $((number % 2 * 16 + 1))
        mapfile -t words < <(grep -v '^--journal$' made/words)
        (
            cd made || exit
            timeout 100 "$program" serial --journal "${words[@]}" >report
            "$view" page --script script report >page && python3 "$tests/page.py" --script script page report >>"$work/got" 2>&1
            for change in 1 2 3; do
                { sed '/^journal /,$d' report && sed -n '/^journal /p' report && sed '1,/^journal /d' report | "$tests/change_report.py" $((3 * number + change)); } >changed
                named=$("$view" page --script script changed)
                status=$?
                [[ $status -ne 2 ]] || continue
                echo "$number $change status $status $(grep -o '^changed: line [0-9]*' <<<"$named")" >>"$work/got"
                line=$("$tests/live_states.py" changed script | grep '^line ')
                echo "$number $change status $((${#line} > 0 ? 3 : 0)) ${line:+changed: $line}" >>"$work/wanted"
            done
        )
    done
    same live_states_beside_a_count_of_their_own

    # What stands in the way: a report without a journal, a script with a fault or a refused command, another script, a
    # reply that differs, a publication that lacks, a name that can't be read, and words that are no command.
    printf 'add 100 alow ip from any to any\n' >"$work/faulty"
    printf 'add 100 allow ip from any to any\ndelete 200\n' >"$work/refused"
    cp "$states/rules" "$work/rules"
    sed '/^delete 300/d' "$states/rules" >"$work/fewer"
    sed 's/^\(ask 2\.5 .*\) found 3 reverse$/\1 notfound/' "$states/expected" >"$work/other"
    cp "$states/expected" "$work/report"
    cp "$edit/before.report" "$work/before"
    { cat "$states/rules" && echo 'add 700 deny ip from any to any'; } >"$work/more"
    {
        cd "$work" || exit
        for words in "rules before" "faulty report" "refused report" "rules other" "fewer report" "more report" "nowhere report" \
            "rules nowhere" "rules"; do
            read -r -a words <<<"$words"
            "$view" page --script "${words[@]}"
            echo "status $?"
        done
        "$view" moves --script rules report report
        echo "status $?"
        "$view" script --script rules rules
        echo "status $?"
        cd "$work/files" || exit
    } >"$work/got"
    {
        printf '%s\n' 'before: has no journal, which ipfw_replay prints with --journal' 'status 3' \
            'script line 1 column 9 UnknownWord' 'status 2' 'script line 2 NoSuchRule' 'status 2' \
            'other: line 364 is not what rules gives' 'status 3' "report: line $(grep -n '^publish 2$' "$states/expected" | cut -d: -f1) is not what fewer gives" 'status 3' \
            "report: line $(grep -n '^lane 1 ' "$states/expected" | cut -d: -f1) is not what more gives" 'status 3' \
            'cannot read nowhere' 'status 4' 'cannot read nowhere' 'status 4'
        for _ in {1..3}; do printf '%s\nstatus 1\n' "$usage_of_view"; done
    } >"$work/wanted"
    same live_states_of_another_script
else
    failed_to_run view_states.sh "there is no program $view"
fi
