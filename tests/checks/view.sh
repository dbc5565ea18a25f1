# report_view on the reports of the examples: its moves and their flows beside tests/flows.py, its pages parsed, their figures counted.
# shellcheck shell=bash disable=SC2154

view=$(dirname "$program")/report_view
edit=$top/examples/edit
if [[ -x $view ]]; then
    "$view" moves "$edit/before.report" "$edit/after.report" >"$work/got"
    cp "$edit/moves" "$work/wanted"
    same view_moves_of_the_example

    # The example's reports are those of its scripts.
    check_whole view_before_is_a_replay 0 serial "$first/rules" "out:em0:$first/session.pcap" <"$edit/before.report"
    check_whole view_after_is_a_replay 0 serial "$edit/rules" "out:em0:$first/session.pcap" <"$edit/after.report"

    # Of itself nothing moves; turned round, each move is turned round.
    "$view" moves "$edit/before.report" "$edit/before.report" | head -n 3 >"$work/got"
    printf 'moved 0\nmoved to another verdict 0\nstayed 170\n' >"$work/wanted"
    same view_nothing_moves_of_itself
    "$view" moves "$edit/after.report" "$edit/before.report" | awk '/ then  /{on = 1; next} /^$/{on = 0} on{print $1, $2, $3, $4}' >"$work/got"
    awk '/ then  /{on = 1; next} /^$/{on = 0} on{print $1, $2, $3, $4}' "$edit/moves" >"$work/wanted"
    same view_moves_turned_round

    # A text that is no report is never "no change".
    echo 'script line 5 column 9 UnknownWord' >"$work/fault"
    {
        "$view" moves "$edit/before.report" "$work/fault" | sed "s#^.*/##"
        echo "status ${PIPESTATUS[0]}"
        "$view" moves "$edit/before.report" "$work/nowhere" | sed "s# [^ ]*/# #"
        echo "status ${PIPESTATUS[0]}"
        "$view" moves "$edit/before.report" "$top/examples/states/expected"
        echo "status $?"
    } >"$work/got"
    printf '%s\n' 'fault: line 1 is none that a report has there' 'status 2' 'cannot read nowhere' 'status 4' \
        'captures: 1 in the first report, in the second 2' 'status 3' >"$work/wanted"
    same view_no_report_is_told

    # The flows of what moved beside a reading of its own (tests/flows.py): the example, captures of IPv4 and IPv6, two
    # merged, and one of more flows than are told.
    printf 'add 100 allow ip from any to any\n' >"$work/then"
    printf '%s\n' 'add 100 deny udp from any to any' 'add 200 reset tcp from any to any' 'add 300 deny ip6 from any to any' \
        'add 400 allow ip from any to any' >"$work/now"
    : >"$work/wanted"
    : >"$work/got"
    moved() { awk '/ then  .* now$/ { on = 1 } /^$/ { on = 0 } on'; }
    "$view" moves "$edit/before.report" "$edit/after.report" "out:em0:$first/session.pcap" | moved >>"$work/got"
    "$tests/flows.py" "$edit/before.report" "$edit/after.report" "$first/session.pcap" >>"$work/wanted"
    while read -r -a words; do
        captures=("${words[@]/#*:em0:/$tests/captures/}")
        words=("${words[@]/:em0:/:em0:$tests/captures/}")
        "$program" serial "$work/then" "${words[@]}" >"$work/then.report"
        "$program" serial "$work/now" "${words[@]}" >"$work/now.report"
        "$tests/flows.py" "$work/then.report" "$work/now.report" "${captures[@]}" >>"$work/wanted"
        "$view" moves "$work/then.report" "$work/now.report" "${words[@]}" | moved >>"$work/got"
    done <<'WORDS'
in:em0:v6_any_sll.pcap
in:em0:dns_any_sll.pcap
in:em0:icmp_c0.pcap
out:em0:day_c0_out.pcap in:em0:day_c0_in.pcap
in:em0:day_r0_in.pcap in:em0:day_s0_in.pcap
WORDS
    same view_flows_beside_a_reading_of_its_own

    # Flows alone are added: all else of the moves is told as without captures.
    "$view" moves "$edit/before.report" "$edit/after.report" "out:em0:$first/session.pcap" | grep -v '^ *[0-9]* \{10,\}[0-9]\|^ * and [0-9]* flows more' >"$work/got"
    cp "$edit/moves" "$work/wanted"
    same view_flows_alone_are_added

    # Captures that aren't those of the reports, captures with a fault, and words that are no captures.
    head -c 1000 "$first/session.pcap" >"$work/cut.pcap"
    head -c 20 "$first/session.pcap" >"$work/short.pcap"
    {
        for words in "out:em0:$first/session.pcap in:em0:$tests/captures/icmp_c0.pcap" "in:em0:$tests/captures/icmp_c0.pcap" \
            "out:em0:$work/cut.pcap out:em0:$work/short.pcap" "out:em0:$work/cut.pcap" "out:em0:$work/short.pcap" "out:em0:$edit/rules" "out:em0:$work/nowhere" \
            em0:x in:em0: in::x inout:em0:x in:em/0:x in:abcdefghijklmnop:x; do
            read -r -a words <<<"$words"
            "$view" moves "$edit/before.report" "$edit/after.report" "${words[@]}" | sed -E 's#(^| )/[^ ]*/#\1#g'
            echo "status ${PIPESTATUS[0]}"
        done
        "$view" script "$first/rules" in:em0:
        echo "status $?"
        "$view" script "$first/rules" in:em0:x em0
        echo "status $?"
    } >"$work/got"
    usage_of_view='usage: report_view moves OLD NEW [in|out:IF:CAPTURE ..] | page [--script SCRIPT] REPORT [NEW] | script SCRIPT [in|out:IF:CAPTURE ..]'
    {
        printf '%s\nstatus 3\n' 'captures: 1 in the reports, named 2' 'icmp_c0.pcap: records: 170 in the reports, in the capture 173' \
            'captures: 1 in the reports, named 2' 'cut.pcap: record 10 ShortRecordHeader' 'short.pcap: record 0 ShortHeader' 'rules: record 0 BadMagic'
        printf 'cannot read nowhere\nstatus 4\n'
        for _ in {1..8}; do printf '%s\nstatus 1\n' "$usage_of_view"; done
    } >"$work/wanted"
    same view_captures_that_do_not_fit

    # A verdict that was given at a limit is that verdict: the same packets denied by a rule move to another rule alone.
    raw_packets "$(packet 17 10.0.0.1 192.0.2.1)" "$(packet 17 10.0.0.1 192.0.2.2)" "$(packet 17 10.0.0.1 192.0.2.3)" >"$work/limited.pcap"
    printf '%s\n' 'add 100 allow udp from any to any limit src-addr 1' >"$work/limit"
    printf '%s\n' 'add 50 deny udp from any to 192.0.2.2' 'add 60 deny udp from any to 192.0.2.3' \
        'add 100 allow udp from any to any limit src-addr 1' >"$work/denied"
    for script in limit denied; do
        "$program" serial --journal "$work/$script" "in:em0:$work/limited.pcap" >"$work/$script.report"
    done
    {
        "$view" moves "$work/limit.report" "$work/denied.report"
        "$view" page "$work/limit.report" "$work/denied.report" | grep -o 'id="verdicts">[0-9]*'
    } >"$work/got"
    cat >"$work/wanted" <<'END'
moved 2
moved to another verdict 0
stayed 1

  records  capture    first     last  then                                                            now
        1        1        2        2  deny at a limit, by allow udp from any to any limit src-addr 1  deny, by deny udp from any to 192.0.2.2
        1        1        3        3  deny at a limit, by allow udp from any to any limit src-addr 1  deny, by deny udp from any to 192.0.2.3

  records  capture    first     last  then and now
        1        1        1        1  allow, by allow udp from any to any limit src-addr 1
id="verdicts">0
END
    same view_denied_at_a_limit_is_denied

    # A report lacks the last lane of its journal, or the line of a cache: of such a text nothing is shown.
    cp "$work/limited.pcap" "$work/second.pcap"
    two=("in:em0:$work/limited.pcap" "in:em0:$work/second.pcap")
    "$program" serial --journal --cache 8 "$work/denied" "${two[@]}" >"$work/whole"
    sed '/^lane 2 /d' "$work/whole" >"$work/without_lane"
    sed '/^lane /d' "$work/whole" >"$work/without_lanes"
    sed 's/^lane 2 /lane 3 /' "$work/whole" >"$work/other_lane"
    sed '/^cache 1 /d' "$work/whole" >"$work/without_first"
    sed '/^cache 2 /d' "$work/whole" >"$work/without_second"
    sed '/^cache /d' "$work/whole" >"$work/without_caches"
    lanes=$(grep -n '^lane 2 ' "$work/whole" | cut -d: -f1)
    caches=$(grep -n '^cache 1 ' "$work/whole" | cut -d: -f1)
    for report in without_lane without_lanes other_lane without_first without_second without_caches whole; do
        "$view" moves "$work/whole" "$work/$report" | sed '1!d; s#^.*/##'
        echo "status ${PIPESTATUS[0]}"
    done >"$work/got"
    for line in "without_lane: line $lanes" "without_lanes: line $((lanes - 1))" "other_lane: line $lanes" \
        "without_first: line $caches" "without_second: line $((caches + 1))"; do
        printf '%s is none that a report has there\nstatus 2\n' "$line"
    done >"$work/wanted"
    printf 'moved 0\nstatus 0\nmoved 0\nstatus 0\n' >>"$work/wanted"
    same view_lanes_and_caches_are_whole

    # Each figure of the pages beside counts over their reports.
    {
        "$view" page "$edit/before.report" "$edit/after.report" >"$work/page" && python3 "$tests/page.py" "$work/page" "$edit/before.report" 95 13 75
        for report in "$top"/examples/*/expected; do
            "$view" page "$report" >"$work/page" && python3 "$tests/page.py" "$work/page" "$report"
        done
    } >"$work/got" 2>&1
    : >"$work/wanted"
    same view_pages_tell_what_the_reports_do

    # Every fault of a script, with its line and a mark under the word; what is odd in one without a fault.
    printf '%s\n' 'add 100 alow ip from any to any' 'add 70000 allow ip from any to any' \
        'add 200 allow tcp from 10.0.0.1/33 to any' $'\tadd 300 deny ip from any to any foo # why' \
        'after 3' live live >"$work/faulty"
    {
        "$view" script "$work/faulty"
        echo "status $?"
    } >"$work/got"
    cat >"$work/wanted" <<'END'
line 1, column 9: this word isn't known here
    add 100 alow ip from any to any
            ^
line 2, column 5: this number is out of its range
    add 70000 allow ip from any to any
        ^
line 3, column 24: a prefix has 0 to 32 bits, of IPv6 0 to 128
    add 200 allow tcp from 10.0.0.1/33 to any
                           ^
line 4, column 34: this word isn't known here
    TABadd 300 deny ip from any to any foo # why
    TAB                                ^
line 5, column 1: this can't stand here
    after 3
    ^
line 7, column 1: this can't stand here
    live
    ^
status 2
END
    sed -i 's/TAB/\t/' "$work/wanted"
    same view_script_tells_each_fault

    printf '%s\n' 'table web create' 'table spare create type number' 'table web add 203.0.113.80 80' \
        'add 100 allow ip from me to table(web)' 'add 200 allow tcp from any to any recv em7' \
        'add 210 allow tcp from any to any via em*' 'add 300 deny ip from any to any' \
        'add 400 count ip from any to any' 'add 500 set 5 allow ip from any to any' \
        'set disable 5 7' 'delete 999' 'table nowhere list' >"$work/odd"
    {
        "$view" script "$work/odd" in:em0:day.pcap
        echo "status $?"
        "$view" script "$first/rules" in:em0:day.pcap
        echo "status $?"
    } >"$work/got"
    cat >"$work/wanted" <<'END'
line 11: refused: no rule has that number
line 12: refused: no table has that name
line 4: `me` is nobody: no `local` gives the host an address
line 8: rule 400 meets no packet while that of line 7 stands, which takes each before it
line 5: no capture is of the interface em7
line 2: no rule names the table spare
set 5 is disabled from the start, rules in it: 1
set 7 is disabled from the start, rules in it: 0
status 2
no fault, and nothing odd
status 0
END
    same view_script_tells_what_is_odd
else
    failed_to_run view.sh "there is no program $view"
fi
