# Real captures, each beside what another program (tshark) reads of its packets: tests/captures/NAME.tsv.
# shellcheck shell=bash disable=SC2154,SC2238

# recorded NAME CAPTURE: the report of the capture beside the rules in the file script is that of its fields.
recorded() {
    awk -v script=script -f "$tests/verdicts.awk" "$tests/captures/$2.tsv" >printed
    check "$1" 0 serial script "in:em0:$tests/captures/$2.pcap" <printed
}

# networks CAPTURE: the /24 networks of its packets' sources.
networks() { awk -F '\t' '$4 ~ /\./ && !/^#/ { sub(/[0-9]+$/, "0", $4); print $4 }' "$tests/captures/$1.tsv" | sort -u; }

for capture in day_c0_in day_c0_out dns_any_sll icmp_c0; do
    : >script
    recorded "${capture}_empty_script" $capture
    for protocol in ip udp tcp icmp; do
        echo "add 100 allow $protocol from any to any" >script
        recorded "${capture}_$protocol" $capture
    done
    for network in $(networks $capture); do
        echo "add 100 allow ip from $network/24 to any" >script
        recorded "${capture}_from_$network" $capture
        echo "add 100 allow ip from any to $network/24" >script
        recorded "${capture}_to_$network" $capture
    done
    printf '%s\n' 'add 400 deny ip from 10.0.0.0/8 to 10.20.2.2' 'add 300 allow icmp from any to 10.20.0.0/16' \
        'add 100 allow udp from 198.51.100.53 to any' 'add 300 deny tcp from 10.9.1.2 to 10.16.0.0/12' \
        'add 100 deny udp from any to 198.51.100.0/25' 'add 500 allow tcp from 203.0.113.64/27 to 10.9.1.2/31' >script
    recorded "${capture}_six_rules" $capture
done

# Each of these bodies alone, behind the tables, beside every capture as incoming and as outgoing packets.
tables='local 10.9.1.2
table nets add 10.20.0.0/16 1
table nets add 10.20.2.0/24 2
table nets add 198.51.100.53
table services create type number
table services add 53
table services add 80 1'
bodies='ip from me to any
ip from not me to not any
ip from 10.9.1.2,198.51.100.53 to not 203.0.113.80,10.20.0.0/16
ip from any to table(nets)
ip from any to table(nets,1)
ip from not table(nets,0) to table(nets,2),203.0.113.80
tcp from any 80 to any
ip from any to any 53
udp from any not 53 to any 1024-65535
ip from any not 53,80-443 to any
tcp from any 1-1023,8080 to any not 80
ip from any to any in
ip from any to any out
ip from any to any not in recv em*
ip from any to any xmit em0
ip from any to any via em0 not via em1*
ip from any to any not recv any
ip from any to any established
tcp from any to any not established
ip from any to any setup
ip from any to any frag
ip from any to any not frag
ip from any to any tcpflags syn
ip from any to any tcpflags syn,!ack
ip from any to any tcpflags ack,!syn,!fin,!rst
ip from any to any not tcpflags psh
ip from any to any tcpflags !urg
ip from any to any icmptypes 0,8
ip from any to any icmptypes 3,11,12
ip from any to any not icmptypes 8
ip from any to any icmptypes 31
ip from any to any ipoptions rr
ip from any to any ipoptions lsrr,!rr
ip from any to any ipoptions ssrr
ip from any to any ipoptions ts
ip from any to any ipoptions !rr,!ts,!lsrr,!ssrr
ip from any to any not ipoptions rr
ip from any to any lookup src-ip nets
ip from any to any lookup dst-ip nets
ip from any to any lookup src-port services
ip from any to any not lookup dst-port services
tcp from me 1024-65535 to table(nets),203.0.113.0/24 80,443 out established not tcpflags fin lookup dst-port services'

for capture in day_c0_in day_c0_out dns_any_sll icmp_c0; do
    for direction in in out; do
        : >"$work/wanted"
        : >"$work/got"
        while read -r body; do
            printf '%s\nadd 100 allow %s\n' "$tables" "$body" >script
            {
                echo "$body"
                awk -v script=script -v direction=$direction -f "$tests/verdicts.awk" "$tests/captures/$capture.tsv"
                echo 'status 0'
            } >>"$work/wanted"
            { echo "$body" && replay serial script "$direction:em0:$tests/captures/$capture.pcap"; } >>"$work/got"
        done <<<"$bodies"
        same "${capture}_bodies_$direction"
    done
    {
        echo "$tables"
        awk '{ print "add " 100 * NR " " (NR % 2 ? "deny" : "allow") " " $0 }' <<<"$bodies" | grep -Ev ' (in|out|not frag|via em0 .*)$'
    } >script
    recorded "${capture}_many_bodies" $capture
done
