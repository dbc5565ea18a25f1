# Captures of each byte order, precision and link type, cut anywhere, and past each limit (pcap 2.4).
# shellcheck shell=bash disable=SC2154,SC2238

one_record='1.1 deny 65535 at 1
end 1 records 1'

check empty_script_denies_one_syn 0 serial empty in:em0:syn.pcap <<<"$one_record"

bytes "a1b23c4d 0002 0004 00000000 00000000 00040000 00000071 00000064 00000000 00000038 00000038
    0000 0001 0006 020000000002 0000 0800 $syn" >cooked
echo 'add allow tcp from any to any 80' >script
check_whole cooked_big_endian_nanoseconds 0 serial script in:em0:cooked <<'END'
1.1 allow 00100 at 1
end 1 records 1
editions 1
rules 2
00100 1 40 allow tcp from any to any 80
65535 0 0 set 31 deny ip from any to any
clock 0
states 0
END
bytes "4d3cb2a1 0200 0400 00000000 00000000 00000400 01000000" "$(record 100 "$syn_frame")" >nanoseconds
check little_endian_nanoseconds 0 serial empty in:em0:nanoseconds <<<"$one_record"
bytes "a1b2c3d4 0002 0004 00000000 00000000 00040000 00000001 00000064 00000000 00000036 00000036 $syn_frame" >big
check big_endian_microseconds 0 serial empty in:em0:big <<<"$one_record"

bytes "d4c3b2a1 0200 0400 00000000 00000000 00000400 00000000" "$(record 100 "02000000 $syn")" \
    "$(record 101 "00000002 $syn")" "$(record 102 "1e000000 $syn")" >loopback
check loopback_family_in_either_order 0 serial empty in:lo0:loopback <<'END'
1.1 deny 65535 at 1
1.2 deny 65535 at 1
1.3 malformed 3
end 1 records 3
END

bytes "$ethernet_capture" "$(record 100 '020000000001 020000000002 0806 0001 0800 0604 0001')" \
    "$(record 101 "020000000001 020000000002 8100 0005 0800 $syn")" \
    "$(record 102 "020000000001 020000000002 8100 0005 8100 0006 0800 $syn")" \
    "$(record 103 '020000000001 020000000002 08')" "$(record 104 '020000000001 020000000002 8100 0005 08')" >frames
check arp_is_other_and_one_vlan_is_read 0 serial empty in:em0:frames <<'END'
1.1 other
1.2 deny 65535 at 1
1.3 other
1.4 malformed 1
1.5 malformed 1
end 1 records 5
END

zeros=00000000000000000000000000000000000000
raw_packets '' "55$zeros" "44$zeros" "46$zeros" "45000013${zeros:6}" "60$zeros" "${syn/45000028/45000000}" >kinds
check malformed_kinds 0 serial empty in:em0:kinds <<'END'
1.1 malformed 2
1.2 malformed 3
1.3 malformed 4
1.4 malformed 2
1.5 malformed 5
1.6 malformed 2
1.7 deny 65535 at 1
end 1 records 7
END

head -c 24 syn.pcap >no_records
check capture_of_no_records 0 serial empty in:em0:no_records <<<'end 1 records 0'

head -c 30 syn.pcap >cut
check header_and_half_a_record_header 3 serial empty in:em0:cut <<<'fault 1 record 1 ShortRecordHeader'

bytes "$ethernet_capture" "$(record 100 "$syn_frame")" "$(record 101 "$syn_frame")" >two
head -c -1 two >cut
check last_record_cut_short 3 serial empty in:em0:cut <<'END'
1.1 deny 65535 at 1
fault 1 record 2 ShortRecord
END
head -c 100 two >cut
check second_record_header_cut_short 3 serial empty in:em0:cut <<'END'
1.1 deny 65535 at 1
fault 1 record 2 ShortRecordHeader
END

# Every cut of a header of 24 bytes, a record's header of 16 and a record of 54.
: >"$work/got"
for size in {0..93}; do
    head -c "$size" syn.pcap >cut
    replay serial empty in:em0:cut >>"$work/got"
done
{
    printf 'fault 1 record 0 ShortHeader\nstatus 3\n%.0s' {0..23}
    printf 'end 1 records 0\nstatus 0\n'
    printf 'fault 1 record 1 ShortRecordHeader\nstatus 3\n%.0s' {25..39}
    printf 'fault 1 record 1 ShortRecord\nstatus 3\n%.0s' {40..93}
} >"$work/wanted"
same every_cut_of_a_capture

# refused NAME WORD DIGITS..: each capture that the digits name stops in its header with the fault WORD.
refused() {
    local name=$1 word=$2 digits
    shift 2
    : >"$work/wanted"
    : >"$work/got"
    for digits in "$@"; do
        printf 'fault 1 record 0 %s\nstatus 3\n' "$word" >>"$work/wanted"
        bytes "$digits" "$(record 100 "$syn_frame")" >refused
        replay serial empty in:em0:refused >>"$work/got"
    done
    same "$name"
}

rest='00000000 00000000 00000400'
refused bad_magic BadMagic "d4c3b2a0 0200 0400 $rest 01000000" "c3d4a1b2 0200 0400 $rest 01000000" \
    "0a0d0d0a 1c000000 4d3c2b1a 0100 0000 ffffffffffffffff" "00000000 0200 0400 $rest 01000000"
refused bad_version BadVersion "d4c3b2a1 0200 0300 $rest 01000000" "d4c3b2a1 0300 0400 $rest 01000000" \
    "d4c3b2a1 0002 0004 $rest 01000000" "a1b2c3d4 0200 0400 $rest 00000001"
refused unknown_link UnknownLink "d4c3b2a1 0200 0400 $rest 02000000" "d4c3b2a1 0200 0400 $rest 64000000" \
    "d4c3b2a1 0200 0400 $rest e4000000" "d4c3b2a1 0200 0400 $rest 00000001" "d4c3b2a1 0200 0400 $rest 01000010"
refused bad_magic_comes_before_bad_version BadMagic "d4c3b2a2 0300 0400 $rest 02000000"
refused bad_version_comes_before_unknown_link BadVersion "d4c3b2a1 0300 0400 $rest 02000000"

{
    bytes "$raw_capture" "$(little 100)" "$(little 0)" "$(little 262144)" "$(little 262144)"
    head -c 262144 /dev/zero
    bytes "$(little 101)" "$(little 0)" "$(little 262145)" "$(little 262145)"
} >long
check record_too_long 3 serial empty in:em0:long <<'END'
1.1 malformed 3
fault 1 record 2 RecordTooLong
END

# 4,194,304 records are the most: of no bytes each, at second 0.
summary() { # summary CAPTURE: how many lines the report has, its last line, and the status
    timeout 100 "$program" serial empty in:em0:"$1" 2>&1 | verdicts_and_answers | awk 'END { print NR " lines"; print }'
    echo "status ${PIPESTATUS[0]}"
}
{ bytes "$ethernet_capture" && head -c $((4194304 * 16)) /dev/zero; } >most
summary most >"$work/got"
printf '\0' >>most
summary most >>"$work/got"
rm most
cat >"$work/wanted" <<'END'
4194305 lines
end 1 records 4194304
status 0
4194305 lines
fault 1 record 4194305 TooManyPackets
status 3
END
same most_records_and_one_byte_more
