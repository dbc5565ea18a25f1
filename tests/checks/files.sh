# Files that aren't there, folders, pipes, and standard output that takes nothing.
# shellcheck shell=bash disable=SC2154,SC2238

mkdir -p folder
cannot_read() { echo "cannot read $1"; }

check missing_script 4 serial none in:em0:syn.pcap < <(cannot_read none)
check missing_capture 4 serial empty in:em0:none < <(cannot_read none)
check missing_script_comes_before_missing_capture 4 serial none in:em0:nowhere < <(cannot_read none)
check missing_folder 4 serial empty in:em0:nowhere/c < <(cannot_read nowhere/c)
check file_used_as_a_folder 4 serial empty in:em0:syn.pcap/c < <(cannot_read syn.pcap/c)
check folder_as_script 4 serial folder in:em0:syn.pcap < <(cannot_read folder)
check folder_as_script_comes_before_missing_capture 4 serial folder in:em0:none < <(cannot_read folder)
check folder_as_capture 4 serial empty in:em0:folder <<<'fault 1 record 0 ReadFault'

echo 'no rule' >out_of_form
check missing_capture_comes_before_script_line 4 serial out_of_form in:em0:none < <(cannot_read none)
check script_line_comes_before_folder_as_capture 2 serial out_of_form in:em0:folder <<<'script line 1 column 1 UnknownWord'
check script_line_comes_before_capture_fault 2 serial out_of_form in:em0:empty <<<'script line 1 column 1 UnknownWord'

# A pipe gives the script, and another the capture in two pieces, cut in the record's header.
cat >"$work/wanted" <<'END'
1.1 allow 00100 at 1
end 1 records 1
status 0
END
{
    timeout 100 "$program" serial <(echo 'add 100 allow ip from any to any') \
        in:em0:<(head -c 30 syn.pcap && sleep 0.2 && tail -c +31 syn.pcap) 2>&1
    echo "status $?"
} | verdicts_and_answers >"$work/got"
same pipes_as_script_and_capture

# lost NAME WORD..: the program ends with status 5 where standard output is closed, full, or a pipe that nobody
# reads.
lost() {
    local name=$1
    shift
    printf 'closed 5\nfull 5\nunread 5\n' >"$work/wanted"
    {
        timeout 100 "$program" "$@" >&-
        echo "closed $?"
        timeout 100 "$program" "$@" >/dev/full
        echo "full $?"
        timeout 100 "$program" "$@" >&8
        echo "unread $?"
    } >"$work/got" 2>&1
    same "$name"
}

# File 8 is the end for writing of a pipe whose other end is closed.
mkfifo pipe
exec 7<>pipe
exec 8>pipe
exec 7<&-

lost lost_report serial empty in:em0:syn.pcap
lost lost_usage serial
lost lost_unread_name serial none in:em0:syn.pcap
lost lost_script_line serial out_of_form in:em0:syn.pcap
lost lost_capture_fault serial empty in:em0:empty
"$program" serial --journal empty in:em0:syn.pcap >printed
lost lost_audit_of_what_was_printed audit printed empty in:em0:syn.pcap
lost lost_audit_of_nothing audit empty empty in:em0:syn.pcap
exec 8>&-
