# Whole reports beside tests/reference.py, which reads docs/RULES.md by itself: states, jumps, live edits and several
# captures, on real captures and on some that are made from a number.
# shellcheck shell=bash disable=SC2154

# A host's filter with states, beside what its client sent and received at the same time.
printf '%s\n' 'local 10.9.1.2' 'add 100 check-state :any' 'add 200 deny tcp from any to any established' \
    'add 300 allow tcp from me to any setup keep-state :web' 'add 400 allow udp from me to any 53 keep-state :dns' \
    'add 500 count icmp from any to any' 'add 600 allow icmp from any to any icmptypes 0,3,8,11' \
    'add 700 allow tcp from any to me 22 setup limit src-addr 2' 'add 800 skipto 1000 ip from me to any frag' \
    'add 900 unreach port udp from any to any' 'add 1000 allow ip from any to any frag' 'live' 'after 40' 'delete 400' \
    'after 90' 'add 400 allow udp from me to any 53 keep-state :dns' 'list' 'zero 500' 'after 200' 'set disable 3' \
    'sysctl dyn_keep_states=1' 'delete 300' >script
out=out:em0:$tests/captures/day_c0_out.pcap
in=in:em0:$tests/captures/day_c0_in.pcap
router=in:em1:$tests/captures/day_r0_in.pcap
server=in:em2:$tests/captures/day_s0_in.pcap
check_reference client_with_states --journal script "$out" "$in"
check_reference client_with_states_in_the_other_order --journal script "$in" "$out"
check_reference four_captures_of_one_moment --journal script "$out" "$in" "$router" "$server"
check_reference sixteen_captures_of_one_moment script "$out" "$in" "$router" "$server" "$in" "$router" "$out" \
    "$server" "$server" "$server" "$out" "$in" "$router" "$router" "$out" "$in"
check_reference names_and_fragments --journal script "in:em0:$tests/captures/dns_any_sll.pcap"
check_reference ipv6_has_no_states --journal script "in:em0:$tests/captures/v6_any_sll.pcap"

# The turn of each record among four captures, and among sixteen: an edition before each record tells it. Beside it the
# captures' times as tshark reads them, merged by sort.
turns() { # turns NAME CAPTURE..: the captures of tests/captures by name
    local name=$1 words=() number=0 capture
    shift
    : >times
    for capture in "$@"; do
        number=$((number + 1))
        words+=("in:em0:$tests/captures/$capture.pcap")
        awk -F '\t' -v number=$number '!/^#/ && $1 ~ /^[0-9]+$/ { print $2, number, $1, $13 }' "$tests/captures/$capture.tsv" >>times
    done
    sort -s -k 1,1 -k 2,2n -k 3,3n times | awk '$4 ~ /^ip6?$/ { print $2 "." $3 " at " NR + 1 }' | sort -V >"$work/wanted"
    {
        echo 'add 100 allow ip from any to any'
        echo live
        for ((number = 0; number < $(wc -l <times); number++)); do printf 'after %d\nset enable 1\n' $number; done
    } >script
    timeout 100 "$program" serial script "${words[@]}" | sed -n 's/^\([0-9.]*\) .* at \([0-9]*\)$/\1 at \2/p' | sort -V >"$work/got"
    same "$name"
}
turns turns_of_four_captures day_c0_out day_c0_in day_r0_in day_s0_in
turns turns_of_sixteen_captures day_c0_out day_c0_in day_r0_in day_s0_in day_s0_in day_r0_in day_c0_in day_c0_out \
    day_c0_out day_c0_out day_c0_in day_c0_in day_r0_in day_s0_in day_r0_in day_s0_in

# Every live command that a script may have: 4,096, of which each makes an edition.
{
    echo 'add 100 set 1 allow ip from any to any'
    echo 'add 100 set 2 deny ip from any to any'
    echo 'set disable 2'
    echo live
    for n in {1..4096}; do echo "set swap 1 2"; done
} >script
check_reference most_live_commands script "$out"

# Scripts and captures made from a number.
: >"$work/wanted"
: >"$work/got"
for number in {1..120}; do
    rm -rf made && mkdir made && "$tests/generate.py" "$number" made
    mapfile -t words <made/words
    {
        echo "$number"
        (cd made && "$tests/reference.py" "${words[@]}")
        echo "status $?"
    } >>"$work/wanted"
    {
        echo "$number"
        (cd made && replay_whole serial "${words[@]}")
    } >>"$work/got"
done
same made_from_numbers
