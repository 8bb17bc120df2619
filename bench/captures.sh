#!/bin/bash
# Tries tools/report-to-capture and tools/capture-to-feed on captures that other programs read and write. Run it at the
# top of the repository; it needs neither the program nor the kit. It says what it tried, what it left out because a
# package is missing, and ends with status 1 where something isn't as it should be.
#
# 1. Each story of examples/ with its output becomes a capture. tshark must read the type and the number of each
#    request that is answered, and type, number and cause of each reply, as they are; and the script that is made of
#    the capture must have the story's moments, senders and datagrams.
# 2. text2pcap, of Wireshark, makes a capture of what one node sends in a story; the script of it must be the same.
# 3. scapy makes one with fragments, VLAN tags and much that isn't wanted; the script of it must be
#    examples/captured.feed.
cd "$(dirname "$0")/.." || exit 1
work=$(mktemp -d)
trap 'rm -rf "$work"' EXIT
failed=0

is_same() {
    diff "$2" "$3" >"$work/diff" && return 0
    echo "$1: not as it should be"
    head -n 20 "$work/diff" | cut -c 1-160
    failed=1
    return 1
}

# the datagrams of a script: the moment, the sender and the octets
datagrams() {
    awk '$1 == "at" { moment = $2 }
        $1 == "in" {
            octets = ""
            for (i = 3; i <= NF; i++) octets = octets $i
            print moment, $2, toupper(octets)
        }' "$1"
}

# of answered requests and of their replies: type, number, and the cause of a response. As the script and report say
as_written() {
    datagrams "$1" >"$work/datagrams"
    paste -d' ' "$work/datagrams" <(head -n "$(wc -l <"$work/datagrams")" "$2") | awk '
        function told(octets, kind) {
            kind = substr(octets, 3, 2)
            print kind, substr(octets, 9, 4), kind == "F1" ? substr(octets, 15, 2) : "-"
        }
        $4 != "-" { told($3); told($4) }'
}

# and as tshark reads the capture
as_read() {
    tshark -n -r "$1" -T fields -e ip.src -e gtp.message -e gtp.seq_number -e gtp.cause 2>"$work/told" | awk -F'\t' '
        { row = toupper(substr($2, 3) " " substr($3, 3)) " " ($4 == "" ? "-" : sprintf("%02X", $4)) }
        $1 == "10.0.0.1" { print before; print row }
        { before = row }'
}

stories() {
    local story name
    for story in examples/*.feed; do
        name=${story%.feed}
        [ -e "$name.err" ] && continue
        tools/report-to-capture "$story" "$name.out" "$work/capture.pcap" || failed=1
        as_written "$story" "$name.out" >"$work/written"
        as_read "$work/capture.pcap" >"$work/read"
        is_same "$story read by tshark" "$work/written" "$work/read" || continue
        tools/capture-to-feed "$work/capture.pcap" 10.0.0.1 >"$work/again.feed" 2>"$work/told" || failed=1
        is_same "$story from its capture" <(datagrams "$story") <(datagrams "$work/again.feed") || continue
        echo "$story: $(wc -l <"$work/datagrams") lines, and $(grep -c '' "$work/read") messages read by tshark"
    done
    for story in examples/*.replay; do
        tools/report-to-capture "$story" "${story%.replay}.out" "$work/capture.pcap" || failed=1
        grep '^m ' "${story%.replay}.out" | awk '{ print toupper($5) }' >"$work/written"
        tshark -n -r "$work/capture.pcap" -Y gtpprime -T fields -e udp.payload 2>"$work/told" | tr a-f A-F >"$work/read"
        is_same "$story read by tshark" "$work/written" "$work/read" || continue
        echo "$story: $(wc -l <"$work/read") messages read by tshark"
    done
}

by_text2pcap() {
    local story=examples/restart.feed moment sender octets
    datagrams $story | grep ' 10.0.1.1:40001 ' >"$work/wanted"
    while read -r moment sender octets; do
        printf '%d.000000\n000000 %s\n' "$moment" "$(sed 's/../& /g' <<<"$octets")"
    done <"$work/wanted" >"$work/dump"
    text2pcap -q -t '%s.%f' -4 10.0.1.1,10.0.0.1 -u 40001,3386 "$work/dump" "$work/capture.pcap" || failed=1
    tools/capture-to-feed "$work/capture.pcap" >"$work/made.feed" || failed=1
    is_same "the capture of text2pcap" "$work/wanted" <(datagrams "$work/made.feed") &&
        echo "the capture of text2pcap: $(wc -l <"$work/wanted") datagrams"
}

by_scapy() {
    "$1" bench/captures/by_scapy.py "$work/capture.pcap" 2>"$work/told" || { cat "$work/told"; failed=1; }
    tools/capture-to-feed "$work/capture.pcap" 10.0.0.1 >"$work/made.feed" 2>"$work/told" || failed=1
    is_same "the capture of scapy" <(sed -n '/^at/,$p' examples/captured.feed) "$work/made.feed" &&
        echo "the capture of scapy: $(datagrams "$work/made.feed" | wc -l) datagrams, and of the rest: $(
            sed 's/.*feed: //' "$work/told" | paste -sd';')"
}

if ! command -v tshark >/dev/null; then
    echo 'tshark is missing, so nothing was tried: apt-get update && apt-get install -y tshark'
    exit 0
fi
stories
if command -v text2pcap >/dev/null; then
    by_text2pcap
else
    echo 'text2pcap is missing, so no capture of it was tried: apt-get install -y wireshark-common'
fi
python=$(for each in python3 /usr/bin/python3; do "$each" -c 'import scapy' 2>/dev/null && echo "$each" && break; done)
if [ -n "$python" ]; then
    by_scapy "$python"
else
    echo 'scapy is missing, so no capture of it was tried: apt-get install -y python3-scapy'
fi
exit $failed
