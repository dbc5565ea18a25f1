# With a cache of verdicts the program prints what it prints without one, but for the lines of the caches' hits.
# shellcheck shell=bash disable=SC2154

# cached NAME WORD..: the run of these words behind 'serial' beside those with caches for 1, 4 and 65,536 verdicts.
cached() {
    local name=$1 room
    shift
    replay_whole serial "$@" >"$work/wanted"
    for room in 1 4 65536; do
        replay_whole serial --cache $room "$@" | grep -v '^cache [0-9]* hits [0-9]*$' >"$work/got"
        same "${name}_with_a_cache_of_$room"
    done
}

printf '%s\n' 'add 100 deny ip from any to 10.20.0.0/16' 'add 200 allow tcp from any to any established' \
    'add 300 unreach port udp from any to any' 'live' 'after 20' 'add 150 allow icmp from any to any' 'after 60' \
    'delete 200' >script
cached rules_that_end_the_search --journal script "out:em0:$tests/captures/day_c0_out.pcap" "in:em0:$tests/captures/day_c0_in.pcap"

# Scripts and captures made from a number.
: >"$work/wanted"
: >"$work/got"
for number in {1..40}; do
    rm -rf made && mkdir made && "$tests/generate.py" "$number" made
    mapfile -t words <made/words
    (cd made && replay_whole serial "${words[@]}") >>"$work/wanted"
    (cd made && replay_whole serial --cache 4 "${words[@]}") | grep -v '^cache [0-9]* hits [0-9]*$' >>"$work/got"
done
same made_from_numbers_with_a_cache
