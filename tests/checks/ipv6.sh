# A real capture of IPv6, beside what another program (tshark) reads of its packets: tests/captures/v6_any_sll.tsv.
# shellcheck shell=bash disable=SC2154,SC2238

# Bodies that ask for no field of the header behind the extension headers.
bodies='ip from any to any
all from any to any
ip4 from any to any
ipv4 from any to any
ip6 from any to any
ipv6 from any to any
ip6 from fd09:1::2 to any
ip6 from any to fd09:1::2
ip from fd09::/16 to any
ip from not fd09::/16 to any
ip from fd09:1::/64,fd09:2::/64 to any
ip from not fd09:1::/64,fd09:2::/64 to any
ip from any to ff02::/16
ip from any to ff02::1:ff00:0/104
ip from any to not ff02::1:ff00:0/104
ip from fe80::/10 to any
ip from ::/0 to any
ip from any to not ::/0
ip from ::/1 to any
ip from ::1 to any
6 from fd09::/16 to any
17 from fd09::/16 to any
udp from fd09::/16 to fd09::/16
tcp from ::/0 to any
ipv6-icmp from any to ff00::/8
58 from fe80::/10 to any
59 from ::/0 to any
4 from ::/0 to any
41 from ::/0 to any
44 from ::/0 to any
icmp from ::/0 to any
ip6 from any to any frag
ip6 from any to any not frag
udp from ::/0 to any frag
ip6 from any to any in
ip6 from any to any out
ip6 from any to any icmptypes 0,1,3,4,8
ip6 from any to any not icmptypes 0,1,3,4,8
ip6 from any to any ipoptions rr
ip6 from any to any ipoptions !rr
ip6 from any to any not ipoptions rr'

# Bodies that do. tshark reads these fields of a datagram in fragments where it is whole again, so the first
# fragments are left out.
transport='ip6 from any 53 to any
ip6 from any to any 53
ip6 from any not 53 to any
ip6 from any to any 1024-65535
ip6 from any to any not 1024-65535
udp from fd09::/16 to any 1-1023,5000-6000
tcp from fd09::/16 1024-65535 to fd09::/16 80,443
ip6 from any to any established
ip6 from any to any not established
ip6 from any to any setup
tcp from ::/0 to any not setup
ip6 from any to any tcpflags syn
ip6 from any to any not tcpflags ack
ip6 from any to any tcpflags fin
ip6 from any to any icmp6types 128,129
ip6 from any to any icmp6types 1,3,4
ip6 from any to any icmp6types 135
ip6 from any to any not icmp6types 133,134,135,136,143
ip6 from any to any icmp6types 0,255
58 from ::/0 to any icmp6types 136'

# The numbers of the first fragments, and the reports' lines but theirs.
first_fragments() {
    awk -F '\t' 'NR == 1 { for (n = 1; n <= NF; n++) column[$n] = n; next }
        $column["ipv6.fraghdr.nxt"] != "" && $column["ipv6.fraghdr.offset"] + 0 == 0 { print "1." NR - 1 }' \
        "$tests/captures/v6_any_sll.tsv"
}
but_first_fragments() { awk 'NR == FNR { left_out[$1]; next } !($1 in left_out)' <(first_fragments) -; }

# beside NAME FILTER BODY..: the reports beside each body alone, as the filter leaves them.
beside() {
    local name=$1 filter=$2 body
    : >"$work/wanted"
    : >"$work/got"
    while read -r body; do
        echo "add 100 allow $body" >script
        {
            echo "$body"
            awk -v script=script -f "$tests/fields6.awk" -f "$tests/verdicts6.awk" "$tests/captures/v6_any_sll.tsv" | $filter
            echo 'status 0'
        } >>"$work/wanted"
        { echo "$body" && replay serial script "in:em0:$tests/captures/v6_any_sll.pcap" | $filter; } >>"$work/got"
    done
    same "$name"
}

beside v6_any_sll_bodies cat <<<"$bodies"
beside v6_any_sll_transport_bodies but_first_fragments <<<"$transport"

printf '%s\n' 'add 100 deny 59 from ::/0 to any' 'add 200 allow udp from ::/0 to any frag' 'add 300 deny ip6 from any to any frag' \
    'add 400 allow 58 from fe80::/10 to ff02::/16' 'add 500 deny ip from fe80::/10 to any' \
    'add 600 allow tcp from fd09:1::2 to fd20::/16' 'add 700 deny ip4 from any to any' \
    'add 800 allow udp from fd20:2::2 to not fd09:1::22' 'add 900 deny 41 from fd00::/8 to any' \
    'add 1000 allow ip from any to fd09:1::/64,::/1' >script
awk -v script=script -f "$tests/fields6.awk" -f "$tests/verdicts6.awk" "$tests/captures/v6_any_sll.tsv" >printed
check v6_any_sll_ten_rules 0 serial script "in:em0:$tests/captures/v6_any_sll.pcap" <printed

# chosen_records CAPTURE: the capture with those records alone whose numbers stand in the file chosen.
chosen_records() {
    python3 -c '
import struct, sys
chosen = {int(line) for line in open("chosen")}
data = open(sys.argv[1], "rb").read()
order = "<" if data[0] in (0xD4, 0x4D) else ">"
sys.stdout.buffer.write(data[:24])
at, number = 24, 0
while at < len(data):
    end = at + 16 + struct.unpack(order + "I", data[at + 8:at + 12])[0]
    number += 1
    if number in chosen:
        sys.stdout.buffer.write(data[at:end])
    at = end
' "$1"
}

# Each packet by all that tshark reads of it, each rule with its packets and their total lengths.
for fragments in no first; do
    rm -f script chosen
    awk -v script=script -v chosen=chosen -v fragments=$fragments -f "$tests/fields6.awk" -f "$tests/packets6.awk" \
        "$tests/captures/v6_any_sll.tsv" >"$work/wanted"
    chosen_records "$tests/captures/v6_any_sll.pcap" >chosen.pcap
    timeout 100 "$program" serial script in:em0:chosen.pcap >report
    {
        sed '/^editions /,$d' report
        awk '/^clock / { exit }
             inside && $1 != "65535" && $4 " " $5 != "allow ip4" { print $1, $2, $3 }
             /^rules / { inside = 1 }' report
    } >"$work/got"
    same "v6_any_sll_each_field_fragments_$fragments"
done
