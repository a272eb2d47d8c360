#!/usr/bin/env bash
# SNMP programs of others talk to a sign over UDP: `trials/real_clients.sh [--front-end PATH] [CO-PROCESS]` prints `N passed,
# N failed`.
#
# Needed are Debian's snmp, smitools, tshark and python3-pysnmp4. The co-process is signtool, or another that answers the
# same lines: model/signtool. One datagram in five is lost where a centre of ours publishes to the sign. With
# --front-end the sign's front end is that program, examples/signd.c's, which loses none and does not tell what it accepts.
set -u
case " $* " in *" --help "*) sed -n '2,/^[^#]/s/^# \{0,1\}//p' "$0"; exit ;; esac
top=$(cd "$(dirname "$0")/.." && pwd)
signd=
if [ "${1:-}" = --front-end ]; then
    signd=${2:?--front-end PATH}
    shift 2
    [ -x "$signd" ] || { echo "no program at $signd" >&2; exit 2; }
fi
program=${1:-$top/crates/signtool/out/signtool}
for needed in snmpget snmpgetnext snmpset snmpwalk smilint tshark; do
    command -v $needed > /dev/null || { echo "$needed is not here: apt-get install snmp smitools tshark python3-pysnmp4" >&2; exit 2; }
done
[ -x "$program" ] || { echo "no program at $program" >&2; exit 2; }
folder=$(mktemp -d)
front_ends=()
trap 'kill "${front_ends[@]}" 2> /dev/null; rm -rf "$folder"' EXIT
passed=0
failed=0
port=$((20000 + RANDOM % 20000))
export LC_ALL=C SNMP_PERSISTENT_DIR=$folder/snmp
mkdir -p "$SNMP_PERSISTENT_DIR/mib_indexes" "$SNMP_PERSISTENT_DIR/cert_indexes"

# is NAME FOUND WANTED
is() {
    if [ "$2" = "$3" ]; then
        passed=$((passed + 1))
    else
        failed=$((failed + 1))
        printf '%s: found\n%s\nwanted\n%s\n' "$1" "${2:0:600}" "${3:0:600}"
    fi
}

# start_front_end WORDS..: a new sign at a port of its own
start_front_end() {
    port=$((port + 1))
    if [ -n "$signd" ]; then
        local sign=$top/signs/bench.sign ticks=
        [ "${1:-}" = --sign ] && sign=$2
        [ "${1:-}" = --no-ticks ] && ticks=--no-ticks
        "$signd" --port $port $ticks "$sign" > "$folder/front_end.$port" 2>&1 &
    else
        "$top/bin/wisangub-sign" --port $port --signtool "$program" "$@" > "$folder/front_end.$port" 2>&1 &
    fi
    front_ends+=($!)
    for _ in $(seq 300); do
        grep -q "a sign at" "$folder/front_end.$port" && return
        sleep 0.1
    done
    echo "no front end at $port: $(cat "$folder/front_end.$port")" >&2
    exit 2
}

snmp() { local call=$1; shift; "$call" -v1 -t 2 -r 1 -M "$top/mibs" -m DMS-PROFILE-MIB -OU "$@" 2>&1; }
reads() { snmp snmpget -c public -Oqv "127.0.0.1:$port" "$@"; }
writes() { snmp snmpset -c admin -Ir -Oqv "127.0.0.1:$port" "$@"; }
reason() { grep -o 'Reason: .*' | sed 's/Reason: //; s/(//; s/[ )].*//' | head -1; }

is "the MIB" "$(SMIPATH=$top/mibs smilint -l 3 "$top/mibs/DMS-PROFILE-MIB" 2>&1)" ""

# --- a walk is what Gets give -------------------------------------------------------------------------------------------
start_front_end --no-ticks
if tshark -D 2> /dev/null | grep -q '\blo\b\|Loopback'; then
    tshark -i lo -f "udp port $port" -w "$folder/wire.pcap" > /dev/null 2>&1 &
    front_ends+=($!)
    sleep 2
fi
snmp snmpwalk -c public -On -Oq "127.0.0.1:$port" .1.3.6.1.4.1.1206.4.2.3 > "$folder/walk"
sed -i '/^End of MIB$/d' "$folder/walk"
is "the number of instances" "$(wc -l < "$folder/walk")" 2376
cut -d' ' -f1 "$folder/walk" > "$folder/names"
xargs -n 30 < "$folder/names" | while read -ra names; do snmp snmpget -c public -On -Oq "127.0.0.1:$port" "${names[@]}"; done > "$folder/gets"
is "Gets of all names" "$(cmp "$folder/walk" "$folder/gets" 2>&1)" ""
is "names in order, none twice" "$(sort -u "$folder/names" | wc -l) $(python3 -c '
import sys
names = [tuple(map(int, line.strip(".\n").split("."))) for line in open(sys.argv[1])]
print(names == sorted(set(names)))' "$folder/names")" "$(wc -l < "$folder/names") True"

# --- reads and refusals as a manager prints them --------------------------------------------------------------------------
is "a Get" "$(reads vmsSignWidthPixels.0)" 23
is "a status by its name" "$(snmp snmpget -c public "127.0.0.1:$port" dmsMessageStatus.3.1)" "DMS-PROFILE-MIB::dmsMessageStatus.3.1 = INTEGER: notUsed(1)"
is "a Get of what there is not" "$(snmp snmpget -c public "127.0.0.1:$port" dmsMessageStatus.3.3 | reason)" noSuchName
is "a GetNext" "$(snmp snmpgetnext -c public -Oqv "127.0.0.1:$port" vmsSignHeightPixels.0)" 23
is "another community" "$(snmp snmpget -c nobody "127.0.0.1:$port" vmsSignWidthPixels.0 | head -c 7)" Timeout
is "SNMPv2c" "$(snmpget -v2c -t 1 -r 0 -c public "127.0.0.1:$port" .1.3.6.1.4.1.1206.4.2.3.2.3.0 2>&1 | head -c 7)" Timeout
is "the reader writes" "$(snmp snmpset -c public "127.0.0.1:$port" defaultFont.0 i 2 | reason)" noSuchName

# sets NAME TYPE GOOD BAD..: each good value is read back; each bad one is badValue
sets() {
    local name=$1 type=$2 good=$3
    shift 3
    writes "$name" "$type" "$good" > "$folder/set"
    is "Set $name to $good" "$(snmp snmpget -c public -Oqve -Ox "127.0.0.1:$port" "$name" | tr -d '" ')" "$good"
    for bad in "$@"; do
        is "Set $name to $bad" "$(writes "$name" "$type" "$bad" | reason)" badValue
    done
}
raw() { echo ".1.3.6.1.4.1.1206.4.2.3.$1"; }
sets "$(raw 4.1.0)" i 3 10 -1
sets "$(raw 4.2.0)" i 9 10 -1
for place in 3 4 8 9; do sets "$(raw 4.$place.0)" i 255 256 -1; done
sets "$(raw 4.5.0)" i 2 3 0 256
sets "$(raw 4.5.0)" i 1 255
sets "$(raw 4.6.0)" i 4 1 5
sets "$(raw 4.7.0)" i 4 1 5
sets "$(raw 6.10.0)" i 65535 65536 -1
sets "$(raw 6.13.0)" i 65535 65536 -1
for place in 8 9 12 14 15; do sets "$(raw 6.$place.0)" x 0700020000 07000200 070002000000; done
is "a value of another type" "$(snmp snmpset -c admin -Ir "127.0.0.1:$port" "$(raw 4.1.0)" u 3 | reason)" badValue
is "an object that is only read" "$(snmp snmpset -c admin "127.0.0.1:$port" "$(raw 2.3.0)" i 3 | reason)" noSuchName

# --- a publication by snmpset alone ---------------------------------------------------------------------------------------
start_front_end
is "modify" "$(writes dmsMessageStatus.3.1 i modifyReq)" modifyReq
is "now it is being modified" "$(reads dmsMessageStatus.3.1)" modifying
writes dmsMessageMultiString.3.1 s 'A[nl0]' dmsMessageOwner.3.1 s me dmsMessageBeacon.3.1 i 0 dmsMessagePixelService.3.1 i 0 dmsMessageRunTimePriority.3.1 i 100 > "$folder/set"
is "the text" "$(reads dmsMessageMultiString.3.1)" '"A[nl0]"'
writes dmsMessageMultiString.3.1 s A > "$folder/set"
is "validate" "$(writes dmsMessageStatus.3.1 i validateReq)" validateReq
sleep 2
is "it is valid after a second" "$(reads dmsMessageStatus.3.1)" valid
is "its checksum" "$(reads dmsMessageCRC.3.1)" $((0x9a66))
is "another checksum is refused" "$(writes dmsActivateMessage.0 x FFFFFF0300019A677F000001 | reason)" genError
is "and why" "$(reads dmsActivateMsgError.0)" messageCRC
writes dmsActivateMessage.0 x FFFFFF0300019A667F000001 > "$folder/set"
is "activated" "$(reads dmsActivateMsgError.0)" none
is "the text that is shown" "$(reads dmsMessageMultiString.5.1)" '"A"'
is "who activated it" "$(reads dmsMsgRequesterID.0)" 127.0.0.1
[ -n "$signd" ] || is "the front end says so" "$(grep -c 'accepted ffffff0300019a667f000001' "$folder/front_end.$port")" 1

# --- by pysnmp --------------------------------------------------------------------------------------------------------------
if python3 -c 'import pysnmp' 2> /dev/null; then clients=python3; else clients=/usr/bin/python3; fi
is "pysnmp reads and writes" "$($clients - "$port" 2>&1 << 'PYTHON'
import sys
from pysnmp.hlapi import (CommunityData, ContextData, Integer, ObjectIdentity, ObjectType, SnmpEngine, UdpTransportTarget, getCmd, nextCmd, setCmd)
engine, to = SnmpEngine(), UdpTransportTarget(("127.0.0.1", int(sys.argv[1])), timeout=2, retries=1)
dms = "1.3.6.1.4.1.1206.4.2.3."
def call(command, community, *objects, **words):
    return next(command(engine, CommunityData(community, mpModel=0), to, ContextData(), *objects, **words))
_, status, _, found = call(getCmd, "public", ObjectType(ObjectIdentity(dms + "2.4.0")))
print(int(status), found[0][1].prettyPrint())
_, status, _, found = call(nextCmd, "public", ObjectType(ObjectIdentity(dms + "5.8.1.9.2.1")))
print(int(status), found[0][0].getOid(), found[0][1].prettyPrint())
_, status, index, _ = call(setCmd, "admin", ObjectType(ObjectIdentity(dms + "4.2.0"), Integer(10)))
print(int(status), int(index))
_, status, index, _ = call(setCmd, "admin", ObjectType(ObjectIdentity(dms + "4.2.0"), Integer(3)))
print(int(status), int(index))
PYTHON
)" "0 23
0 1.3.6.1.4.1.1206.4.2.3.5.8.1.9.3.1 4
3 1
0 0"

# --- our centre, one datagram in five lost ------------------------------------------------------------------------------------
start_front_end --sign "$top/signs/roadside.sign" --lose 5
text=$(printf 'LANE CLOSED[nl]1 KM' | od -An -tx1 | tr -d ' \n')
printf 'publish 3 1 %s - 0 0 100 65535 255 127.0.0.1\n' "$text" |
    timeout 100 "$top/bin/wisangub-centre" --to "127.0.0.1:$port" --signtool "$program" --sign "$top/signs/roadside.sign" > "$folder/centre" 2>&1
is "the ledger" "$(sed -n 's/^ledger .* //p' "$folder/centre")" accepted
is "the text that the centre published" "$(snmp snmpget -c public -Oqv "127.0.0.1:$port" dmsMessageMultiString.5.1 dmsMsgSourceMode.0 | tr '\n' ' ')" '"LANE CLOSED[nl]1 KM" central '

# --- what went over the wire ------------------------------------------------------------------------------------------------------
if [ -s "$folder/wire.pcap" ]; then
    sleep 1
    is "tshark decodes every datagram" "$(tshark -r "$folder/wire.pcap" -d "udp.port==$((port - 2)),snmp" -Y '_ws.malformed || _ws.expert.severity >= 8388608' 2> /dev/null | wc -l)" 0
else
    echo "tshark captured nothing here: it was not asked"
fi

echo "$passed passed, $failed failed"
[ "$failed" = 0 ]
