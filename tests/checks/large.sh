# Runs over millions of records.
# shellcheck shell=bash disable=SC2154

# 262,144 records of one SYN, made by doubling, taken sixteen times: a report of more than 100 MB.
bytes "$(record 100 "$syn")" >doubled
for _ in {1..18}; do cat doubled doubled >twice && mv twice doubled; done
{ bytes "$raw_capture" && cat doubled; } >many.pcap
rm doubled
echo 'add 100 allow tcp from any to any' >allow_tcp
many=()
for _ in {1..16}; do many+=(in:em0:many.pcap); done
{
    awk 'BEGIN {
        for (capture = 1; capture <= 16; capture++) {
            for (record = 1; record <= 262144; record++) print capture "." record " allow 00100 at 1"
            print "end " capture " records 262144"
        }
    }'
    printf '%s\n' 'editions 1' 'rules 2' '00100 4194304 167772160 allow tcp from any to any' \
        '65535 0 0 set 31 deny ip from any to any' 'clock 0' 'states 0'
} >report
printf '%s\n' 'equal 0' 'status 0' 'more than 100 MB' >"$work/wanted"
{
    timeout 300 "$program" serial allow_tcp "${many[@]}" | cmp - report
    statuses=("${PIPESTATUS[@]}")
    printf '%s\n' "equal ${statuses[1]}" "status ${statuses[0]}"
    [[ $(wc -c <report) -gt 100000000 ]] && echo 'more than 100 MB'
} >"$work/got" 2>&1
same report_of_100_MB
rm many.pcap report

# A load is the same at each run, and its summary has these lines.
replay_whole load 100000 >"$work/wanted"
replay_whole load 100000 >"$work/got"
same load_is_the_same_again
echo 'records allow deny editions entries states status' >"$work/wanted"
awk '{ printf "%s%s", (NR > 1 ? " " : ""), $1 } END { print "" }' "$work/got" >"$work/lines"
mv "$work/lines" "$work/got"
same load_has_the_lines_of_a_summary

# Editions of edits that touch no rule share what the rules come to: 4,096 of them beside 10,000 rules, each kept to
# the report, have room in 160 MB of addresses. Twenty bytes for each rule of each would be 800 MB.
bytes "$raw_capture" >no_records.pcap
{
    awk 'BEGIN { for (number = 1; number <= 10000; number++) print "add " number " count ip from any to any" }'
    echo live
    awk 'BEGIN { for (most = 1; most <= 4096; most++) print "sysctl dyn_max=" most }'
} >script
printf '%s\n' 'end 1 records 0' 'editions 4097' 'rules 10001' 'states 0' 'status 0' >"$work/wanted"
(ulimit -v 160000 && replay_whole serial script in:em0:no_records.pcap) |
    grep -E '^(end|editions|rules|states|status) ' >"$work/got"
same settings_edits_share_the_rules
