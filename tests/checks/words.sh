# Words that are a command and words that are none.
# shellcheck shell=bash disable=SC2154,SC2238

check no_words 1 <<<"$usage"
check one_word 1 serial <<<"$usage"
check missing_capture_is_usage 1 serial empty <<<"$usage"
check word_too_many 1 serial empty in:em0:syn.pcap more <<<"$usage"

# none_of_these NAME WORD..: `serial empty WORD` is no command for each of the words.
none_of_these() {
    local name=$1 word
    shift
    : >"$work/wanted"
    : >"$work/got"
    for word in "$@"; do
        printf '%s\n%s\nstatus 1\n' "$word" "$usage" >>"$work/wanted"
        { echo "$word" && replay serial empty "$word"; } >>"$work/got"
    done
    same "$name"
}

none_of_these words_that_are_no_capture syn.pcap em0:syn.pcap in:syn.pcap IN:em0:syn.pcap both:em0:syn.pcap \
    :em0:syn.pcap in:em0 in:em0: in::syn.pcap '' :: ' in:em0:syn.pcap'
none_of_these words_that_name_no_interface in:abcdefghijklmnop:syn.pcap 'in:em*:syn.pcap' 'in:e m:syn.pcap' \
    in:em/0:syn.pcap in:ém0:syn.pcap

check script_that_looks_like_an_option 1 serial -s in:em0:syn.pcap <<<"$usage"
check script_without_a_name 1 serial '' in:em0:syn.pcap <<<"$usage"
check mode_in_capitals 1 Serial empty in:em0:syn.pcap <<<"$usage"
check words_in_another_order 1 serial in:em0:syn.pcap empty <<<"$usage"
check script_that_is_no_text 1 serial $'empty\xff' in:em0:syn.pcap <<<"$usage"
check capture_that_is_no_text 1 serial empty $'in:em0:syn\xc3' <<<"$usage"
check mode_that_is_no_text 1 $'serial\x80' empty in:em0:syn.pcap <<<"$usage"

check help_is_no_command 1 serial --help <<<"$usage"
check divider_twice 1 serial -- empty -- in:em0:syn.pcap <<<"$usage"

check mode_live 0 live empty in:em0:syn.pcap <<'END'
1.1 deny 65535 at 1
end 1 records 1
END
printf 'live\nafter 1\nlist\n' >waits
check waits_in_live_mode 2 live waits in:em0:syn.pcap <<'END'
script line 2 column 1 PaceInLive
END

check journal_twice 1 serial --journal --journal empty in:em0:syn.pcap <<<"$usage"
check journal_with_a_value 1 serial --journal=1 empty in:em0:syn.pcap <<<"$usage"
check load_of_nothing 1 load 0 <<<"$usage"
check load_of_too_many 1 load 1000001 <<<"$usage"
check load_with_eight_digits 1 load 00000001 <<<"$usage"
check load_with_a_sign 1 load +1 <<<"$usage"
check load_with_a_journal 1 load --journal 1 <<<"$usage"
check load_of_two_numbers 1 load 1 2 <<<"$usage"
sixteen=()
for _ in {1..16}; do sixteen+=(in:em0:syn.pcap); done
check seventeen_captures 1 serial empty "${sixteen[@]}" in:em0:syn.pcap <<<"$usage"

one_syn_denied='1.1 deny 65535 at 1
end 1 records 1'

check capture_of_what_went_out 0 serial empty out:em0:syn.pcap <<<"$one_syn_denied"
check interface_of_fifteen_bytes 0 serial empty in:aB3_.-ghijklmno:syn.pcap <<<"$one_syn_denied"
cp empty ./-
check script_named_by_a_dash 0 serial - in:em0:syn.pcap <<<"$one_syn_denied"
cp syn.pcap a:b
check capture_with_a_colon_in_its_name 0 serial empty in:em0:a:b <<<"$one_syn_denied"
check divider_before_the_script 0 serial -- empty in:em0:syn.pcap <<<"$one_syn_denied"
check divider_behind_the_capture 0 serial empty in:em0:syn.pcap -- <<<"$one_syn_denied"
cp empty ./--script
check script_that_looks_like_an_option_behind_the_divider 0 serial -- --script in:em0:syn.pcap <<<"$one_syn_denied"

one_syn_whole='1.1 deny 65535 at 1
end 1 records 1
editions 1
rules 1
65535 1 40 set 31 deny ip from any to any
clock 0
states 0'
check_whole empty_script_denies_one_syn 0 serial empty in:em0:syn.pcap <<<"$one_syn_whole"
journal='journal 2 1
publish 1
lane 1 refused 0 tracker 2'
check_whole journal_before_the_script 0 serial --journal empty in:em0:syn.pcap <<<"$one_syn_whole"$'\n'"$journal"
check_whole journal_behind_the_capture 0 serial empty in:em0:syn.pcap --journal <<<"$one_syn_whole"$'\n'"$journal"
: >./--journal
check journal_behind_the_divider_is_a_name 1 serial -- --journal empty in:em0:syn.pcap <<<"$usage"

head -c 24 syn.pcap >no_record
none=()
for _ in {1..16}; do none+=(out:em1:no_record); done
{
    for capture in {1..16}; do echo "end $capture records 0"; done
    printf '%s\n' 'editions 1' 'rules 1' '65535 0 0 set 31 deny ip from any to any' 'clock 0' 'states 0'
} >printed
check_whole sixteen_captures 0 serial empty "${none[@]}" <printed

check_whole load_of_one_record 0 load 0000001 <<'END'
records 1
allow 0
deny 1
editions 2
entries 3
states 0
END
