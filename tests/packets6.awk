# A rule for each kind of packet of an IPv6 capture, by all that tshark reads of it, and what the rule is to count.
#
# usage: awk -v script=FILE -v chosen=FILE -v fragments=first|no -f fields6.awk -f packets6.awk FIELDS.tsv
#
# Of a first fragment tshark tells no fields of its own behind the extension headers: so first fragments are told apart
# from all else, and their rules ask for none. Into the file of chosen go the numbers of the records that are told, which
# are numbered anew; into that of script the rules: protocol, both addresses, both ports, whether it is a later
# fragment, each TCP flag, the ICMPv6 type. Printed are the verdicts, the end, and then each rule's number with its
# packets and their total lengths, but for IPv4, of which no field is told.

{
    read_fields()
    is_first = version == 6 && field("ipv6.fraghdr.nxt") != "" && offset == 0
    if (is_first != (fragments == "first"))
        next
    print NR - 1 >chosen
    records++
    body = version == 6 ? body_of() : "ip4 from any to any"
    if (!(body in place)) {
        place[body] = ++rules
        in_order[rules] = body
        print "add " rules " allow " body >script
    }
    packets[body]++
    bytes[body] += field("ipv6.plen") == 0 ? field("frame.cap_len") - 16 : field("ipv6.plen") + 40
    printf "1.%d allow %05d at 1\n", records, place[body]
}

END {
    print "end 1 records " records
    for (n = 1; n <= rules; n++)
        if (in_order[n] !~ /^ip4 /)
            printf "%05d %d %d\n", n, packets[in_order[n]], bytes[in_order[n]]
}

# All that is told of the packet.
function body_of(    text) {
    text = protocol " from " field("ipv6.src") ports(source_port) " to " field("ipv6.dst") ports(target_port)
    text = text (offset == 0 ? " not frag" : " frag")
    if (protocol == 6 && !is_first && flags != "")
        text = text " tcpflags " flags_of(flags)
    if (protocol == 58 && !is_first && type != "")
        text = text " icmp6types " type
    return text
}

function ports(port) { return is_first || port == "" ? "" : " " port }

# Each of the six flags, set or clear, of a hexadecimal number.
function flags_of(hexadecimal,    names, value, list, n) {
    split("fin syn rst psh ack urg", names, " ")
    value = 0
    for (n = 3; n <= length(hexadecimal); n++)
        value = 16 * value + index("0123456789abcdef", tolower(substr(hexadecimal, n, 1))) - 1
    for (n = 1; n <= 6; n++) {
        list = list (n > 1 ? "," : "") (value % 2 ? "" : "!") names[n]
        value = int(value / 2)
    }
    return list
}
