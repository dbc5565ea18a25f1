# Which rule decides: the order of the rules, protocols, and prefixes of every length.
# shellcheck shell=bash disable=SC2154,SC2238

printf '%s\n' 'add 200 deny ip from any to any' 'add 100 allow tcp from 10.0.0.0/8 to any' >script
check rules_stand_in_number_order 0 serial script in:em0:syn.pcap <<'END'
1.1 allow 00100 at 1
end 1 records 1
END

printf '%s\n' 'add 7 deny udp from any to any' 'add 7 allow tcp from any to any' 'add 7 deny tcp from any to any' \
    'add 6 allow tcp from 10.0.0.2 to any' >script
check equal_numbers_stand_in_line_order 0 serial script in:em0:syn.pcap <<'END'
1.1 allow 00007 at 1
end 1 records 1
END

printf '%s\n' 'add 65534 allow ip from any to any' 'add 65534 deny ip from any to any' >script
check last_number 0 serial script in:em0:syn.pcap <<'END'
1.1 allow 65534 at 1
end 1 records 1
END

# Packets of ICMP, TCP, UDP and a protocol without a name, beside a rule of each protocol that has one.
a=10.0.0.1 b=192.0.2.1
raw_packets "$(packet 1 $a $b)" "$(packet 6 $a $b)" "$(packet 17 $a $b)" "$(packet 47 $a $b)" >protocols
for protocol in icmp tcp udp ip; do
    echo "add 100 allow $protocol from any to any" >script
    for named in icmp tcp udp gre; do
        case $protocol in
        "$named" | ip) echo 'allow 00100' ;;
        *) echo 'deny 65535' ;;
        esac
    done | awk '{ print "1." NR " " $0 " at 1" } END { print "end 1 records 4" }' >printed
    check "protocol_$protocol" 0 serial script in:em0:protocols <printed
done

# 33 packets between 10.85.170.99 and 192.0.2.1. In the nth, the nth bit of the first address is turned, and in
# the last none. A prefix of LENGTH bits holds exactly those where none of its first LENGTH bits is turned.
turned() { # turned BIT: 10.85.170.99 with that bit turned, from 1, the highest; none is turned for 33
    local value=$(((10 << 24 | 85 << 16 | 170 << 8 | 99) ^ ((1 << 32) >> $1)))
    echo "$((value >> 24)).$((value >> 16 & 255)).$((value >> 8 & 255)).$((value & 255))"
}
sources=() destinations=()
for bit in {1..33}; do
    sources+=("$(packet 6 "$(turned "$bit")" $b)")
    destinations+=("$(packet 6 $b "$(turned "$bit")")")
done
raw_packets "${sources[@]}" >sources
raw_packets "${destinations[@]}" >destinations

# every_length NAME CAPTURE RULE: RULE with /LENGTH behind the word LENGTH's place, for each length.
every_length() {
    local name=$1 capture=$2 rule=$3 length bit
    : >"$work/wanted"
    : >"$work/got"
    for length in {0..32}; do
        echo "${rule/LENGTH/$length}" >script
        replay serial script in:em0:"$capture" >>"$work/got"
        for bit in {1..33}; do
            if [[ $bit -gt $length ]]; then
                echo "1.$bit allow 00100 at 1"
            else
                echo "1.$bit deny 65535 at 1"
            fi
        done >>"$work/wanted"
        printf 'end 1 records 33\nstatus 0\n' >>"$work/wanted"
    done
    same "$name"
}

every_length every_length_of_source sources 'add 100 allow ip from 10.85.170.99/LENGTH to any'
every_length every_length_of_destination destinations 'add 100 allow ip from any to 10.85.170.99/LENGTH'

echo 'add 100 allow ip from 10.85.170.99 to 192.0.2.1' >script
check addresses_without_a_length 0 serial script in:em0:sources < <(
    awk 'BEGIN { for (n = 1; n <= 32; n++) print "1." n " deny 65535 at 1"
        print "1.33 allow 00100 at 1"; print "end 1 records 33" }'
)
