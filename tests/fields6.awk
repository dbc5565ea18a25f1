# What tshark read of an IPv6 capture's packets, for verdicts6.awk and packets6.awk, which stand behind it.
#
# The first line of FIELDS.tsv names its fields, by tshark's names, of which each is the first in the frame: so the
# number of the next header is followed from one extension header to the next.

BEGIN {
    FS = "\t"
    next_of[0] = "ipv6.hopopts.nxt"
    next_of[43] = "ipv6.routing.nxt"
    next_of[44] = "ipv6.fraghdr.nxt"
    next_of[60] = "ipv6.dstopts.nxt"
}

NR == 1 {
    for (n = 1; n <= NF; n++)
        column[$n] = n
    next
}

function field(name) { return $column[name] }

# Follows the extension headers to the protocol. A later fragment ends them.
function read_fields(    number) {
    version = field("sll.etype") == "0x86dd" ? 6 : 4
    protocol = offset = source_port = target_port = flags = type = ""
    if (version != 6)
        return
    number = field("ipv6.nxt")
    offset = 0
    while (offset == 0 && (number in next_of)) {
        if (number == 44)
            offset = field("ipv6.fraghdr.offset") + 0
        number = field(next_of[number])
    }
    protocol = number
    if (offset != 0)
        return
    if (protocol == 6) {
        source_port = field("tcp.srcport")
        target_port = field("tcp.dstport")
        flags = field("tcp.flags")
    } else if (protocol == 17) {
        source_port = field("udp.srcport")
        target_port = field("udp.dstport")
    } else if (protocol == 58)
        type = field("icmpv6.type")
}
