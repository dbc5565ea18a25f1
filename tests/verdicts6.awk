# The report of a capture with IPv6 packets beside a script, worked out from the packets' fields as tshark reads
# them. It shares nothing with the program, so that each can be held against the other.
#
# usage: awk -v script=FILE -f fields6.awk -f verdicts6.awk FIELDS.tsv
#
# A line of the script is 'add NUMBER allow|deny PROTOCOL from ADDRESSES [PORTS] to ADDRESSES [PORTS] [OPTION ..]'; it
# asks nothing of an IPv4 packet but that it is one, since FIELDS.tsv has none of its fields. An address is 'any', or
# one of IPv6, perhaps with a length.

BEGIN {
    split("icmp 1 tcp 6 udp 17 ipv6-icmp 58", pair, " ")
    for (n = 1; n in pair; n += 2)
        number_of[pair[n]] = pair[n + 1]
    split("fin 1 syn 2 rst 4 psh 8 ack 16 urg 32", pair, " ")
    for (n = 1; n in pair; n += 2)
        flag_of[pair[n]] = pair[n + 1]
    while ((getline line < script) > 0)
        if (line != "")
            take_rule(line)
}

{
    records++
    read_fields()
    print "1." records " " judgement()
}

END { print "end 1 records " records + 0 }

function take_rule(text,    words) {
    split(text, words, " +")
    rules++
    number[rules] = words[2] + 0
    verdict[rules] = words[3]
    sub(/^add +[0-9]+ +[a-z]+ +/, "", text)
    body[rules] = text
}

# The rules stand in the order of their numbers.
function judgement(    place) {
    for (place = 1; place <= rules; place++)
        if (holds(body[place]))
            return sprintf("%s %05d at 1", verdict[place], number[place])
    return "deny 65535 at 1"
}

# Whether a body holds of the packet; word and at are where its words are read.
function holds(text) {
    split(text, word, " +")
    at = 1
    return protocol_holds(word[at++]) && end_holds("from", "ipv6.src", source_port) \
        && end_holds("to", "ipv6.dst", target_port) && options_hold()
}

function protocol_holds(name) {
    if (name == "ip" || name == "all")
        return 1
    if (name ~ /^ip(v)?[46]$/)
        return substr(name, length(name)) == version
    return protocol != "" && ((name in number_of) ? number_of[name] : name) == protocol
}

# from or to, addresses and perhaps ports.
function end_holds(before, name, port,    held) {
    if (word[at++] != before)
        return 0
    held = list_holds("address", field(name))
    if (word[at] ~ /^[0-9]/ || (word[at] == "not" && word[at + 1] ~ /^[0-9]/))
        held = list_holds("port", port) && held
    return held
}

# A list, negated behind the word not.
function list_holds(kind, value,    negated, count, element, n, held) {
    negated = 0
    if (word[at] == "not") {
        negated = 1
        at++
    }
    count = split(word[at++], element, ",")
    held = 0
    for (n = 1; n <= count; n++)
        if (kind == "address" ? has_address(element[n], value) : has_port(element[n], value))
            held = 1
    return held != negated
}

function has_address(item, address) {
    if (item == "any")
        return 1
    return version == 6 && item ~ /:/ && within(address, item)
}

function has_port(item, port,    ends) {
    if (split(item, ends, "-") == 1)
        ends[2] = ends[1]
    return port != "" && ends[1] + 0 <= port + 0 && port + 0 <= ends[2] + 0
}

function options_hold(    negated) {
    while (at in word && word[at] != "") {
        negated = 0
        if (word[at] == "not") {
            negated = 1
            at++
        }
        if (option_holds(word[at++]) == negated)
            return 0
    }
    return 1
}

function option_holds(name) {
    if (name == "in")
        return 1
    if (name == "out")
        return 0
    if (name == "established")
        return flags != "" && (has_flag(4) || has_flag(16))
    if (name == "setup")
        return flags != "" && has_flag(2) && !has_flag(16)
    if (name == "frag")
        return offset + 0 != 0
    if (name == "tcpflags")
        return has_flag(flag_of[word[at++]])
    if (name == "icmp6types")
        return type_holds(word[at++])
    at++
    return 0
}

# Whether the flags, written in hexadecimal, have that power of two.
function has_flag(flag,    n, number) {
    number = 0
    for (n = 3; n <= length(flags); n++)
        number = number * 16 + index("0123456789abcdef", substr(flags, n, 1)) - 1
    return int(number / flag) % 2 == 1
}

function type_holds(list,    element, count, n) {
    count = split(list, element, ",")
    for (n = 1; n <= count; n++)
        if (type != "" && element[n] + 0 == type + 0)
            return 1
    return 0
}

# Whether the address's first bits are the prefix's.
function within(address, prefix,    parts, length_of) {
    length_of = split(prefix, parts, "/") == 2 ? parts[2] : 128
    return substr(bits(address), 1, length_of) == substr(bits(parts[1]), 1, length_of)
}

# An address as 128 digits, 0 and 1.
function bits(address,    halves, first, second, before, behind, n, k, digit, text, number) {
    if (address in known)
        return known[address]
    behind = 0
    if (split(address, halves, "::") == 2)
        behind = split(halves[2], second, ":")
    before = split(halves[1], first, ":")
    for (n = 1; n <= 8; n++) {
        number = n <= before ? first[n] : n > 8 - behind ? second[n - 8 + behind] : "0"
        number = substr("0000", 1, 4 - length(number)) number
        for (k = 1; k <= 4; k++) {
            digit = index("0123456789abcdef", substr(number, k, 1)) - 1
            text = text int(digit / 8) % 2 int(digit / 4) % 2 int(digit / 2) % 2 digit % 2
        }
    }
    return known[address] = text
}
