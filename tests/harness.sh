# What the checks are written in. tests/run reads this file, and then each file of checks/, in a folder of its own
# in which they make the files that the program reads.
# shellcheck shell=bash disable=SC2034,SC2154,SC2001

passed=0
failed=0

# The line where the words are no command.
usage='usage: ipfw_replay serial|live [--journal] SCRIPT in|out:IF:CAPTURE .. | load N'

# replay_whole WORD..: runs the program with these words, and prints what it prints, then its status, then what it
# says on standard error, which is to be nothing.
replay_whole() {
    timeout 100 "$program" "$@" </dev/null 2>"$work/errors"
    echo "status $?"
    cat "$work/errors"
}

# verdicts_and_answers: of a report the sections before that of the editions; all else as it is.
verdicts_and_answers() { awk '/^editions [0-9]+$/ { is_behind = 1 } /^status [0-9]+$/ { is_behind = 0 } !is_behind'; }

# replay WORD..: the same, but of a report only the verdicts, the ends and the answers.
replay() { replay_whole "$@" | verdicts_and_answers; }

# same NAME: the check of that name passes where the texts in the files wanted and got are the same.
same() {
    local difference
    if difference=$(diff -a -U 3 --label expected --label got "$work/wanted" "$work/got"); then
        passed=$((passed + 1))
        echo "ok $1"
    else
        failed=$((failed + 1))
        echo "FAILED $1"
        sed 's/^/    /' <<<"$difference"
    fi
}

# check NAME STATUS WORD..: the program prints what comes on standard input and ends with STATUS; of a report its
# verdicts, ends and answers are compared.
check() {
    local name=$1 status=$2
    shift 2
    { cat && echo "status $status"; } >"$work/wanted"
    replay "$@" >"$work/got"
    same "$name"
}

# check_whole NAME STATUS WORD..: the same with the whole report.
check_whole() {
    local name=$1 status=$2
    shift 2
    { cat && echo "status $status"; } >"$work/wanted"
    replay_whole "$@" >"$work/got"
    same "$name"
}

# check_reference NAME WORD..: the program's whole report and status are those of tests/reference.py, a reading of
# docs/RULES.md of its own. The words are those behind 'serial'.
check_reference() {
    local name=$1
    shift
    { "$tests/reference.py" "$@"; echo "status $?"; } >"$work/wanted"
    replay_whole serial "$@" >"$work/got"
    same "$name"
}

# failed_to_run FILE [WHY]: a file of checks that could not be run to its end is a failed check.
failed_to_run() {
    failed=$((failed + 1))
    echo "FAILED $1"
    echo "    ${2:-the file ended with an error}"
}

# bytes DIGITS..: writes the bytes that the hexadecimal digits name; blanks and line ends between them are free.
bytes() {
    # shellcheck disable=SC2059
    printf "$(tr -d ' \n' <<<"$*" | sed 's/../\\x&/g')"
}

# little NUMBER: the hexadecimal digits of the number in four bytes, the lowest first.
little() {
    printf '%02x%02x%02x%02x' $(($1 & 255)) $(($1 >> 8 & 255)) $(($1 >> 16 & 255)) $(($1 >> 24))
}

# The headers of captures that are little-endian, in microseconds, of these link types (pcap 2.4).
ethernet_capture='d4c3b2a1 0200 0400 00000000 00000000 00000400 01000000'
raw_capture='d4c3b2a1 0200 0400 00000000 00000000 00000400 65000000'

# record SECOND DIGITS: the digits of a record with its header, at that second, of the bytes that DIGITS name.
record() {
    local digits=${2//[[:space:]]/}
    local size=$((${#digits} / 2))
    printf '%s%s%s%s%s' "$(little "$1")" "$(little 0)" "$(little $size)" "$(little $size)" "$digits"
}

# address A.B.C.D: its hexadecimal digits.
address() {
    local octets
    IFS=. read -r -a octets <<<"$1"
    printf '%02x%02x%02x%02x' "${octets[@]}"
}

# packet PROTOCOL SOURCE DESTINATION: the digits of an IPv4 packet of 28 bytes, its payload eight zero bytes.
packet() {
    printf '4500001c0000000040%02x0000%s%s0000000000000000' "$1" "$(address "$2")" "$(address "$3")"
}

# raw_packets PACKET..: a raw capture of these packets, at the seconds 100, 101 and on.
raw_packets() {
    local digits=$raw_capture second=100 each
    for each in "$@"; do
        digits+=$(record $second "$each")
        second=$((second + 1))
    done
    bytes "$digits"
}

# A capture of one TCP SYN over Ethernet, from 10.0.0.1 port 1025 to 192.0.2.1 port 80.
syn='45000028000000004006 0000 0a000001 c0000201 04010050 0000000000000000 5002ffff00000000'
syn_frame="020000000001 020000000002 0800 $syn"
bytes "$ethernet_capture" "$(record 100 "$syn_frame")" >syn.pcap

# A script of no lines.
: >empty
