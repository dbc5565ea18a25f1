# The report of a capture beside a script, worked out from the packets' fields as tshark reads them. It shares
# nothing with the program, so that each can be held against the other.
#
# usage: awk -v script=FILE [-v direction=in|out] [-v interface=NAME] -f verdicts.awk FIELDS.tsv
#
# A line of the script is 'local ADDRESS ..', 'table NAME create type number', 'table NAME add KEY [VALUE]', or
# 'add NUMBER allow|deny PROTOCOL from ADDRESSES [PORTS] to ADDRESSES [PORTS] [OPTION ..]'. A line of FIELDS.tsv has
# the fields that its first line names behind '#': among them 'kind' (ip, ip6, other, or malformed with a number) and
# 'opts', the types of the packet's IP options. An address of IPv6 is one of no table, of no prefix of IPv4 and not the
# host's own.

BEGIN {
    FS = "\t"
    if (direction == "")
        direction = "in"
    if (interface == "")
        interface = "em0"
    split("icmp 1 tcp 6 udp 17", pair, " ")
    for (n = 1; n in pair; n += 2)
        number_of[pair[n]] = pair[n + 1]
    split("fin 1 syn 2 rst 4 psh 8 ack 16 urg 32", pair, " ")
    for (n = 1; n in pair; n += 2)
        flag_of[pair[n]] = pair[n + 1]
    split("ssrr 137 lsrr 131 rr 7 ts 68", pair, " ")
    for (n = 1; n in pair; n += 2)
        option_of[pair[n]] = pair[n + 1]
    while ((getline line < script) > 0)
        if (line != "")
            take_line(line)
}

/^#/ {
    sub(/^#/, "")
    for (n = 1; n <= NF; n++)
        column[$n] = n
    next
}

{
    records++
    print "1." field("frame") " " (field("kind") ~ /^ip6?$/ ? judgement() : field("kind"))
}

END { print "end 1 records " records + 0 }

# The packet's field of that name.
function field(name) { return $(column[name]) }

function take_line(line,    words, count, n) {
    count = split(line, words, " +")
    if (words[1] == "local")
        for (n = 2; n <= count; n++)
            is_own[words[n]] = 1
    else if (words[1] == "table" && words[3] == "add")
        entry[words[2], ++entries[words[2]]] = words[4] " " words[5] + 0
    else if (words[1] == "add")
        take_rule(words[2] + 0, words[3], line)
}

# Puts a rule behind those whose number is no greater.
function take_rule(its_number, its_verdict, line,    place) {
    for (place = ++rules; place > 1 && number[place - 1] > its_number; place--) {
        number[place] = number[place - 1]
        verdict[place] = verdict[place - 1]
        body[place] = body[place - 1]
    }
    number[place] = its_number
    verdict[place] = its_verdict
    sub(/^add +[0-9]+ +[a-z]+ +/, "", line)
    body[place] = line
}

function judgement(    place) {
    for (place = 1; place <= rules; place++)
        if (holds(body[place]))
            return sprintf("%s %05d at 1", verdict[place], number[place])
    return "deny 65535 at 1"
}

# Whether a body holds of the packet; word and at are where its words are read.
function holds(text) {
    split(text, word, " +")
    at = 1
    return protocol_holds(word[at++]) && end_holds("from", field("src"), field("sport")) && end_holds("to", field("dst"), field("dport")) && options_hold()
}

function protocol_holds(name) {
    return name == "ip" || name == "all" || name + 0 == field("proto") || ((name in number_of) && number_of[name] == field("proto"))
}

# from or to, addresses and perhaps ports.
function end_holds(before, address, port,    held) {
    if (word[at++] != before)
        return 0
    held = list_holds("address", address)
    if (word[at] ~ /^[0-9]/ || (word[at] == "not" && word[at + 1] ~ /^[0-9]/))
        held = list_holds("port", port) && held
    return held
}

# A list, negated behind the word not.
function list_holds(kind, value,    negated, count, element, n, held) {
    negated = 0
    if (word[at] == "not") {
        negated = 1
        at++
    }
    count = elements_of(word[at++], element)
    held = 0
    for (n = 1; n <= count; n++)
        if (kind == "address" ? has_address(element[n], value) : has_port(element[n], value))
            held = 1
    return held != negated
}

# The elements of a list; a comma within parentheses cuts none.
function elements_of(text, element,    count, n) {
    while (match(text, /\([^),]*,/))
        text = substr(text, 1, RSTART + RLENGTH - 2) ";" substr(text, RSTART + RLENGTH)
    count = split(text, element, ",")
    for (n = 1; n <= count; n++)
        sub(/;/, ",", element[n])
    return count
}

function has_address(item, address,    parts, answer) {
    if (item == "any")
        return 1
    if (item == "me")
        return address in is_own
    if (item !~ /^table\(/)
        return within(address, item)
    split(substr(item, 7, length(item) - 7), parts, ",")
    answer = longest(parts[1], address)
    return answer != "" && (!(2 in parts) || answer == parts[2])
}

# The value of the longest prefix of the table that has the address; empty where none has it.
function longest(table, address,    n, pair, prefix, bits, best, answer) {
    best = -1
    answer = ""
    for (n = 1; n <= entries[table]; n++) {
        split(entry[table, n], pair, " ")
        bits = split(pair[1], prefix, "/") == 2 ? prefix[2] : 32
        if (bits + 0 > best && within(address, pair[1])) {
            best = bits + 0
            answer = pair[2]
        }
    }
    return answer
}

function has_key(table, key,    n, pair) {
    for (n = 1; n <= entries[table]; n++) {
        split(entry[table, n], pair, " ")
        if (key != "" && pair[1] == key)
            return 1
    }
    return 0
}

function has_port(item, port,    ends) {
    if (split(item, ends, "-") == 1)
        ends[2] = ends[1]
    return port != "" && ends[1] + 0 <= port + 0 && port + 0 <= ends[2] + 0
}

function options_hold(    negated, held) {
    while (at in word && word[at] != "") {
        negated = 0
        if (word[at] == "not") {
            negated = 1
            at++
        }
        held = option_holds(word[at++])
        if (held == negated)
            return 0
    }
    return 1
}

function option_holds(name,    asked, table) {
    if (name == "in" || name == "out")
        return direction == name
    if (name == "recv")
        return named(word[at++]) && direction == "in"
    if (name == "xmit")
        return named(word[at++]) && direction == "out"
    if (name == "via")
        return named(word[at++])
    if (name == "established")
        return field("flags") != "" && (has_flag(4) || has_flag(16))
    if (name == "setup")
        return field("flags") != "" && has_flag(2) && !has_flag(16)
    if (name == "frag")
        return field("offset") + 0 != 0
    if (name == "tcpflags")
        return flags_hold(word[at++])
    if (name == "icmptypes")
        return type_holds(word[at++])
    if (name == "ipoptions")
        return ip_options_hold(word[at++])
    asked = word[at++]
    table = word[at++]
    if (asked ~ /ip$/)
        return longest(table, asked == "src-ip" ? field("src") : field("dst")) != ""
    return has_key(table, asked == "src-port" ? field("sport") : field("dport"))
}

function named(pattern) {
    if (pattern ~ /\*$/)
        return index(interface, substr(pattern, 1, length(pattern) - 1)) == 1
    return pattern == "any" || pattern == interface
}

# Whether the flags, written in hexadecimal, have that power of two.
function has_flag(flag,    n, flags) {
    for (n = 3; n <= length(field("flags")); n++)
        flags = flags * 16 + index("0123456789abcdef", substr(field("flags"), n, 1)) - 1
    return int(flags / flag) % 2 == 1
}

function flags_hold(list,    element, count, n, name) {
    if (field("flags") == "")
        return 0
    count = split(list, element, ",")
    for (n = 1; n <= count; n++) {
        name = element[n]
        if (sub(/^!/, "", name) ? has_flag(flag_of[name]) : !has_flag(flag_of[name]))
            return 0
    }
    return 1
}

function type_holds(list,    element, count, n) {
    count = split(list, element, ",")
    for (n = 1; n <= count; n++)
        if (field("icmp") != "" && element[n] + 0 == field("icmp") + 0)
            return 1
    return 0
}

function ip_options_hold(list,    element, count, n, name) {
    if (field("kind") == "ip6")
        return 0
    count = split(list, element, ",")
    for (n = 1; n <= count; n++) {
        name = element[n]
        if (sub(/^!/, "", name) ? has_ip_option(option_of[name]) : !has_ip_option(option_of[name]))
            return 0
    }
    return 1
}

function has_ip_option(type) { return index("," field("opts") ",", "," type ",") != 0 }

function within(address, prefix,    parts, size) {
    if (address ~ /:/)
        return 0
    size = split(prefix, parts, "/") == 2 ? 2 ^ (32 - parts[2]) : 1
    return int(value(address) / size) == int(value(parts[1]) / size)
}

function value(address,    octets) {
    split(address, octets, ".")
    return ((octets[1] * 256 + octets[2]) * 256 + octets[3]) * 256 + octets[4]
}
