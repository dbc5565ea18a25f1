# Scripts: what lines say, their faults, refusals, listings, live edits, and the limits of a script.
# shellcheck shell=bash disable=SC2154,SC2238

# script_line NAME STATUS LINES..: what the first packet meets, by the lines, given as printf gives them.
script_line() {
    local name=$1 status=$2
    # shellcheck disable=SC2059
    printf "$3" >script
    check "$name" "$status" serial script in:em0:syn.pcap
}

allowed='1.1 allow 00100 at 1
end 1 records 1'

script_line rule_without_a_line_end 0 'add 100 allow tcp from any to any' <<<"$allowed"
script_line empty_lines 0 '\n\nadd 100 allow tcp from any to any\n\n' <<<"$allowed"
script_line several_spaces 0 '  add  100 \t allow tcp from  any to any \r\n' <<<"$allowed"
script_line comments 0 '# first\nadd 100 allow tcp from any to any # \xff last\n' <<<"$allowed"
script_line number_with_leading_zeros 0 'add 0000000100 allow tcp from any to any\n' <<<"$allowed"
script_line host_bits_are_cleared 0 'add 100 allow tcp from 10.0.0.255/24 to 192.0.2.77/16\n' <<<"$allowed"
script_line octets_and_lengths_with_zeros 0 'add 100 allow tcp from 010.000.0.001/0032 to any\n' <<<"$allowed"
script_line first_number_is_100 0 'add allow tcp from any to any\n' <<<"$allowed"
script_line number_0_is_no_number 0 'add 0 pass 6 from any to any\n' <<<"$allowed"

echo 'add 5 set 3 pass log logamount 10 6 from not 10.1.2.3/8,me 80,1000-2000 to any not domain in recv em* tcpflags syn,!ack' \
    >script
check_whole canonical_text_of_a_rule 0 serial script in:em0:syn.pcap <<'END'
1.1 deny 65535 at 1
end 1 records 1
editions 1
rules 2
00005 0 0 set 3 allow log logamount 10 tcp from not 10.0.0.0/8,me 80,1000-2000 to any not 53 in recv em* tcpflags syn,!ack
65535 1 40 set 31 deny ip from any to any
clock 0
states 0
END

script_line misspelt_action_in_script 2 'add 100 alow ip from any to any' <<<'script line 1 column 9 UnknownWord'
script_line last_rule_is_reserved 2 'delete 65535\n' <<<'script line 1 ReservedRule'
script_line delete_of_no_rule 2 'delete 7\n' <<<'script line 1 NoSuchRule'
script_line refusal_before_live 2 'delete 7\nlive\ndelete 8\n' <<<'script line 1 NoSuchRule'
script_line fault_behind_live 2 'live\nadd 2\n' <<<'script line 2 column 6 MissingWord'
script_line refusal_behind_live 2 'add 100 allow ip from any to any\nlive\ndelete 7\n' <<'END'
1.1 allow 00100 at 1
end 1 records 1
refused line 3 NoSuchRule
END
script_line live_edit_before_the_first_record 0 'add 100 allow ip from any to any\nlive\ndelete 100\n' <<'END'
1.1 deny 65535 at 2
end 1 records 1
END
script_line live_edit_behind_the_last_record 0 'add 100 allow ip from any to any\nlive\nafter 1\ndelete 100\nlist\n' <<'END'
1.1 allow 00100 at 1
end 1 records 1
list line 5 edition 2
rules 1
65535 set 31 deny ip from any to any
END

printf '%s\n' 'add 65434 deny ip from any to any' 'add deny ip from any to any' 'add deny ip from any to any' list >script
head -c 24 syn.pcap >none.pcap
check automatic_numbers_and_list 0 serial script in:em0:none.pcap <<'END'
end 1 records 0
list line 4 edition 1
rules 4
65434 deny ip from any to any
65534 deny ip from any to any
65534 deny ip from any to any
65535 set 31 deny ip from any to any
END

printf '%s\n' 'add 100 set 1 reset log tcp from 10.0.0.0/8 to any' 'add 200 set 2 unreach port ip from any to any' \
    'set disable 1' 'set move 2 to 1' 'set swap 1 3' list >script
check sets_and_their_rules 0 serial script in:em0:syn.pcap <<'END'
1.1 reset 00100 at 1
end 1 records 1
list line 6 edition 1
rules 3
00100 set 3 reset log tcp from 10.0.0.0/8 to any
00200 set 3 unreach port ip from any to any
65535 set 31 deny ip from any to any
END

printf '%s\n' 'table t list' 'table t add 10.0.0.0/8 1' 'table t add 10.0.0.0/16' 'table t add 9.255.0.1 3' \
    'table u create type number' 'table u add 80 7' 'table u add 9' 'table v swap u' >script
check swap_with_no_table 2 serial script in:em0:syn.pcap <<<'script line 8 NoSuchTable'
sed -i '$d' script
{ echo 'table u list' && echo 'table t flush' && echo 'table t add 1.2.3.4 5'; } >>script
check tables_as_edition_1_has_them 0 serial script in:em0:syn.pcap <<'END'
1.1 deny 65535 at 1
end 1 records 1
table t addr 1 line 1 edition 1
1.2.3.4/32 5
table u number 2 line 8 edition 1
9 0
80 7
END

# each_line NAME: what each line of standard input comes to, behind a line that denies all. It has the line and, behind a
# bar, what is printed first.
each_line() {
    local name=$1 line text
    : >"$work/wanted"
    : >"$work/got"
    while IFS='|' read -r line text; do
        printf 'add 100 deny ip from any to any\n%b\n' "$line" >script
        { printf '%s\n' "$line" && replay serial script in:em0:syn.pcap | head -n 1; } >>"$work/got"
        printf '%s\n%s\n' "$line" "$text" >>"$work/wanted"
    done
    same "$name"
}

each_line lines_one_by_one <<'END'
add|script line 2 column 4 MissingWord
add allow ip from any to any|1.1 deny 00100 at 1
add 0 allow ip from any to any|1.1 deny 00100 at 1
add 65535 allow ip from any to any|script line 2 ReservedRule
add 65536 allow ip from any to any|script line 2 column 5 NumberRange
add 000001 allow ip from any to any|1.1 allow 00001 at 1
add +1 allow ip from any to any|script line 2 column 5 UnknownWord
add 1x allow ip from any to any|script line 2 column 5 BadNumber
add 1 Allow ip from any to any|script line 2 column 7 UnknownWord
add 1 accept ip from any to any|1.1 allow 00001 at 1
add 1 drop all from any to any|1.1 deny 00001 at 1
add 1 reject 6 from any to any|1.1 unreach host 00001 at 1
add 1 unreach 255 ip from any to any|1.1 unreach 255 00001 at 1
add 1 unreach needfrag ip from any to any|1.1 unreach needfrag 00001 at 1
add 1 allow 256 from any to any|script line 2 column 13 NumberRange
add 1 allow ip from any|script line 2 column 24 MissingWord
add 1 allow ip from any to|script line 2 column 27 MissingWord
add 1 allow tcp from any to any 80|1.1 allow 00001 at 1
add 1 allow tcp from any 80 to any|1.1 deny 00100 at 1
add 1 allow tcp from any to any keep-state|1.1 allow 00001 at 1
add 1 count tcp from any to any|1.1 deny 00100 at 1
add 1 skipto 200 tcp from any to any|1.1 deny 65535 at 1
add 1 check-state :any|1.1 deny 00100 at 1
add 1 allow tcp from any to any 80-70|script line 2 column 33 BadRange
add 1 allow ip from any to any in|1.1 allow 00001 at 1
add 1 allow ip from any to any out|1.1 deny 00100 at 1
add 1 allow ip from any to any out of|script line 2 column 36 UnknownWord
add 1 allow ip to any from any|script line 2 column 16 UnknownWord
add 1 allow ip from me to any|1.1 deny 00100 at 1
add 1 allow ip from not any to any|1.1 deny 00100 at 1
add 1 allow ip from 10.0.0.1,10.0.0.2 to any|1.1 allow 00001 at 1
add 1 allow ip from 10.0.0 to any|script line 2 column 21 BadAddress
add 1 allow ip from 10.0.0.0.0 to any|script line 2 column 21 BadAddress
add 1 allow ip from 10.0.0.256 to any|script line 2 column 21 BadAddress
add 1 allow ip from 10.0.0.0001 to any|script line 2 column 21 BadAddress
add 1 allow ip from 10.0.0.0/ to any|script line 2 column 21 BadPrefix
add 1 allow ip from 10.0.0.0/33 to any|script line 2 column 21 BadPrefix
add 1 allow ip from 10.0.0.0/8/8 to any|script line 2 column 21 BadPrefix
add 1 allow ip from any/0 to any|script line 2 column 21 BadAddress
delete 100|1.1 deny 65535 at 1
delete 100 7|script line 2 NoSuchRule
delete set 0|1.1 deny 65535 at 1
delete set 31|1.1 deny 00100 at 1
delete x|script line 2 column 8 BadNumber
flush|1.1 deny 65535 at 1
flush all|script line 2 column 7 ExtraWord
zero|1.1 deny 00100 at 1
zero 7|script line 2 NoSuchRule
set disable 0|1.1 deny 65535 at 1
set disable 31|script line 2 ReservedSet
set enable 32|script line 2 column 12 NumberRange
set move 0 to 31|script line 2 ReservedSet
set move rule 100 to 5|1.1 deny 00100 at 1
set move rule 7 to 5|script line 2 NoSuchRule
set swap 31 31|script line 2 ReservedSet
set 5|script line 2 column 5 UnknownWord
table t create x|script line 2 column 16 ExtraWord
table t destroy|script line 2 NoSuchTable
table t delete 1.2.3.4|script line 2 NoSuchTable
table t list|script line 2 NoSuchTable
table t add 10/8|script line 2 column 13 BadNumber
table t add 80|script line 2 WrongType
sysctl dyn_max=16384|1.1 deny 00100 at 1
sysctl net.inet.ip.fw.dyn_max=65536|1.1 deny 00100 at 1
sysctl net.inet.ip.fw.dyn_max=65537|script line 2 column 8 NumberRange
sysctl dyn_keep_states=1|1.1 deny 00100 at 1
sysctl dyn_keep_states=2|script line 2 column 8 NumberRange
sysctl dyn_kept_states=1|script line 2 column 8 UnknownWord
local 10.0.0.2 10.0.0.3|1.1 deny 00100 at 1
local any|script line 2 column 7 BadAddress
list|1.1 deny 00100 at 1
after 5|script line 2 column 1 Misplaced
ADD 1 allow ip from any to any|script line 2 column 1 UnknownWord
add 1 allow ip from any to any # why|1.1 allow 00001 at 1
add 1 allow ip from any to any\0|script line 2 column 31 BadByte
\x20|1.1 deny 00100 at 1
\xff\xfe|script line 2 column 1 BadByte
END

# What ipfw(8) has and this program doesn't read, or reads otherwise, and what docs/RECIPES.md has to put in its place.
each_line words_of_ipfw_and_their_substitutes <<'END'
add 1 allow ip from any to any proto tcp|script line 2 column 32 UnknownWord
add 1 allow { tcp or udp } from any to any|script line 2 column 13 UnknownWord
add 1 allow tcp from any to any|1.1 allow 00001 at 1
add 1 allow igmp from any to any|script line 2 column 13 UnknownWord
add 1 allow 2 from any to any|1.1 deny 00100 at 1
add 1 allow gre from any to any|script line 2 column 13 UnknownWord
add 1 allow 47 from any to any|1.1 deny 00100 at 1
add 1 allow esp from any to any|script line 2 column 13 UnknownWord
add 1 allow 50 from any to any|1.1 deny 00100 at 1
add 1 allow ah from any to any|script line 2 column 13 UnknownWord
add 1 allow tcp from any to any nfs|script line 2 column 33 UnknownWord
add 1 allow tcp from any nfs to any|script line 2 column 26 BadPort
add 1 allow tcp from any to any 2049|1.1 deny 00100 at 1
add 1 allow icmp from any to any icmptype 8|script line 2 column 34 UnknownWord
add 1 allow icmp from any to any icmptypes 8|1.1 deny 00100 at 1
add 1 allow ip from { 10.0.0.1 or 10.0.0.2 } to any|script line 2 column 21 BadAddress
add 1 allow ip from 10.0.0.2,10.0.0.1 to any|1.1 allow 00001 at 1
add 1 allow ip from 10.0.0.0:255.255.0.0 to any|script line 2 column 21 BadAddress
add 1 allow ip from 10.0.0.0/255.255.0.0 to any|script line 2 column 21 BadPrefix
add 1 allow ip from 10.0.0.0/16 to any|1.1 allow 00001 at 1
add 1 allow tcp from any to any 80, 443|script line 2 column 33 BadPort
add 1 allow tcp from any to any 443,80|1.1 allow 00001 at 1
add 1 allow tcp from any to any dst-port 80|script line 2 column 33 UnknownWord
add 1 allow tcp from any to any 80|1.1 allow 00001 at 1
add 1 allow tcp from any src-port 1025 to any|script line 2 column 26 BadPort
add 1 allow tcp from any 1025 to any|1.1 allow 00001 at 1
add 1 allow ip from me6 to any|script line 2 column 21 BadAddress
add 1 allow ip from fe80::1,10.0.0.1 to any|1.1 allow 00001 at 1
add 1 allow ip from www.example.org to any|script line 2 column 21 BadAddress
add 1 allow ip from any to any via 10.0.0.1|1.1 deny 00100 at 1
add 1 allow ip from any to any via em0|1.1 allow 00001 at 1
add 1 allow ip from any to any // why|script line 2 column 32 UnknownWord
add 1 allow ip from any to any # why|1.1 allow 00001 at 1
add 1 pipe 1 ip from any to any|script line 2 column 7 UnknownWord
add 1 queue 1 ip from any to any|script line 2 column 7 UnknownWord
add 1 nat 1 ip from any to any|script line 2 column 7 UnknownWord
add 1 divert 8668 ip from any to any|script line 2 column 7 UnknownWord
add 1 fwd 10.0.0.9 ip from any to any|script line 2 column 7 UnknownWord
add 1 setfib 1 ip from any to any|script line 2 column 7 UnknownWord
add 1 allow tag 1 ip from any to any|script line 2 column 13 UnknownWord
add 1 allow ip from any to any layer2|script line 2 column 32 UnknownWord
add 1 allow ip from any to any mac any any|script line 2 column 32 UnknownWord
add 1 allow ip from any to any antispoof|script line 2 column 32 UnknownWord
add 1 allow ip from any to any verrevpath|script line 2 column 32 UnknownWord
add 1 allow tcp from any to any lookup dst-port t|1.1 deny 00100 at 1
add 1 allow tcp from any to any limit src-port 2|1.1 allow 00001 at 1
\xef\xbb\xbf# why|script line 2 column 1 BadByte
END

# The rules of the FreeBSD Handbook's example, as its file has them, through the function of docs/RECIPES.md.
cat >ipfw.rules <<'END'
ipfw -q -f flush
cmd="ipfw -q add"
pif="em0"
$cmd 00005 allow all from any to any via xl0
$cmd 00010 allow all from any to any via lo0
$cmd 00101 check-state
$cmd 00110 allow tcp from any to 192.0.2.53 53 out via $pif setup keep-state
$cmd 00111 allow udp from any to 192.0.2.53 53 out via $pif keep-state
$cmd 00120 allow log udp from any to any 67 out via $pif keep-state
$cmd 00200 allow tcp from any to any 80 out via $pif setup keep-state
$cmd 00220 allow tcp from any to any 443 out via $pif setup keep-state
$cmd 00230 allow tcp from any to any 25 out via $pif setup keep-state
$cmd 00231 allow tcp from any to any 110 out via $pif setup keep-state
$cmd 00250 allow icmp from any to any out via $pif keep-state
$cmd 00260 allow udp from any to any 123 out via $pif keep-state
$cmd 00280 allow tcp from any to any 22 out via $pif setup keep-state
$cmd 00299 deny log all from any to any out via $pif
$cmd 00300 deny all from 192.168.0.0/16 to any in via $pif     #RFC 1918 private IP
$cmd 00301 deny all from 172.16.0.0/12 to any in via $pif      #RFC 1918 private IP
$cmd 00302 deny all from 10.0.0.0/8 to any in via $pif         #RFC 1918 private IP
$cmd 00303 deny all from 127.0.0.0/8 to any in via $pif        #loopback
$cmd 00304 deny all from 0.0.0.0/8 to any in via $pif          #loopback
$cmd 00305 deny all from 169.254.0.0/16 to any in via $pif     #DHCP auto-config
$cmd 00306 deny all from 192.0.2.0/24 to any in via $pif       #reserved for docs
$cmd 00307 deny all from 204.152.64.0/23 to any in via $pif    #Sun cluster interconnect
$cmd 00308 deny all from 224.0.0.0/3 to any in via $pif        #Class D & E multicast
$cmd 00310 deny icmp from any to any in via $pif
$cmd 00315 deny tcp from any to any 113 in via $pif
$cmd 00320 deny tcp from any to any 137 in via $pif
$cmd 00321 deny tcp from any to any 138 in via $pif
$cmd 00322 deny tcp from any to any 139 in via $pif
$cmd 00323 deny tcp from any to any 81 in via $pif
$cmd 00330 deny all from any to any frag in via $pif
$cmd 00332 deny tcp from any to any established in via $pif
$cmd 00400 allow tcp from any to me 80 in via $pif setup limit src-addr 2
$cmd 00410 allow tcp from any to me 22 in via $pif setup limit src-addr 2
$cmd 00499 deny log all from any to any in via $pif
$cmd 00999 deny log all from any to any
END
(
    # shellcheck disable=SC2317
    ipfw() { while [ "${1#-}" != "$1" ]; do shift; done; echo "$@"; }
    # shellcheck source=/dev/null
    . ./ipfw.rules
) >script
check rules_of_the_handbook 0 serial script in:em0:syn.pcap out:em0:syn.pcap <<'END'
1.1 deny 00302 at 1
end 1 records 1
2.1 allow 00200 at 1
end 2 records 1
END

# 37,449 rules of this form, which are the most that a script has room for: 100, 200 and so on to 65500, and then
# 65500 again.
yes 'add deny ip from any to any' | head -n 37449 >script
check most_rules_that_a_script_has_room_for 0 serial script in:em0:syn.pcap <<'END'
1.1 deny 00100 at 1
end 1 records 1
END

# 65,536 lines are the most.
{ yes '' | head -n 65535 && echo 'add 100 allow ip from any to any'; } >script
check most_lines 0 serial script in:em0:syn.pcap <<<"$allowed"
{ yes '' | head -n 65536 && echo 'add 100 allow ip from any to any'; } >script
check line_too_many 2 serial script in:em0:syn.pcap <<<'script TooManyLines'
yes '' | head -n 65537 >script
check empty_line_too_many 2 serial script in:em0:syn.pcap <<<'script TooManyLines'

# 1,048,576 bytes are the most.
script_of() { # script_of BYTES: a first rule that is mostly blanks, and a second of 33 bytes with its line end
    printf 'add 200 deny ip from any to%*sany\nadd 100 allow ip from any to any\n' $(($1 - 64)) ''
}
script_of 1048576 >script
check most_bytes 0 serial script in:em0:syn.pcap <<<"$allowed"
script_of 1048577 >script
check byte_too_many 2 serial script in:em0:syn.pcap <<<'script TooLong'
{ yes '' | head -n 1048577; } >script
check too_long_before_too_many_lines 2 serial script in:em0:syn.pcap <<<'script TooLong'
check script_of_a_folder_is_no_script 4 serial . in:em0:syn.pcap <<<'cannot read .'
head -c 1048576 /dev/zero >script
check script_of_zeros 2 serial script in:em0:syn.pcap <<<'script line 1 column 1 BadByte'
