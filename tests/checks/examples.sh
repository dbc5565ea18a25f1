# The examples print what stands beside them, which is what their packets' fields say.
# shellcheck shell=bash disable=SC2154,SC2238

first=$top/examples/first
check_whole example_first 0 serial "$first/rules" "out:em0:$first/session.pcap" <"$first/expected"

verdicts_and_answers <"$first/expected" >"$work/wanted"
awk -v script="$first/rules" -f "$tests/verdicts.awk" "$tests/captures/day_c0_out.tsv" >"$work/got"
same example_first_is_as_its_fields_say

# Two policies in two sets, of which one is disabled; the listings behind the verdicts.
check_whole example_sets 0 serial "$top/examples/sets/rules" "out:em0:$first/session.pcap" <"$top/examples/sets/expected"

# The whole reports of the examples, beside tests/reference.py.
received=$top/examples/states/received.pcap
check_reference example_first_beside_reference "$first/rules" "out:em0:$first/session.pcap"
check_reference example_sets_beside_reference "$top/examples/sets/rules" "out:em0:$first/session.pcap"
check_reference example_states_beside_reference --journal "$top/examples/states/rules" "out:em0:$first/session.pcap" "in:em0:$received"

# States, a live edit and the journal, over two captures.
states=$top/examples/states
check_whole example_states 0 serial --journal "$states/rules" "out:em0:$first/session.pcap" "in:em0:$states/received.pcap" \
    <"$states/expected"
