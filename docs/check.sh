#!/bin/sh
# Runs the examples of README.md, docs/MESSAGES.md and docs/CARRY14.md with the built program over real files: `sh docs/check.sh`, or
# `sh docs/check.sh PROGRAM` for another place than crates/p4x/out/p4x, where `rt run` leaves it. It compares the status, the printed line
# and which outputs are left, and looks the sentence of the standard error stream up in docs/MESSAGES.md. The gate doesn't run it.
set -u
top=$(cd "$(dirname "$0")/.." && pwd)
program=${1:-$top/crates/p4x/out/p4x}
[ -x "$program" ] || { echo "there is no program $program: see README.md, Try it"; exit 2; }
program=$(cd "$(dirname "$program")" && pwd)/$(basename "$program")
work=$(mktemp -d)
trap 'rm -rf "$work"' EXIT
cp "$top"/crates/p4x/data/* "$work"
cd "$work" || exit 2
wrong=0

wrong() {
    echo "$words: $1"
    wrong=$((wrong + 1))
}

# What an output is to be: `none` is no file, `text` the file of the first run, and else a number of octets.
output() {
    case $2 in
    none) [ ! -e "$1" ] || wrong "$1 is there" ;;
    text) cmp -s "$1" text || wrong "$1 isn't the text" ;;
    *) [ -e "$1" ] && [ "$(wc -c <"$1")" -eq "$2" ] || wrong "$1 hasn't $2 octets" ;;
    esac
}

# The status, the printed line, and what out.p4, out.pcap and report.txt are to be; then the words.
expect() {
    status=$1 line=$2 text=$3 sent=$4 report=$5
    shift 5
    words=$*
    rm -f out.p4 out.pcap report.txt
    "$program" "$@" >printed 2>said
    found=$?
    [ $found -eq "$status" ] || wrong "status $found"
    [ "$(cat printed)" = "$line" ] || wrong "the line $(cat printed)"
    case $status in
    0) [ ! -s said ] || wrong "the sentence $(cat said)" ;;
    2) grep -q '^p4x: these words are no form of a command' said || wrong "the sentence $(cat said)" ;;
    *) grep -qF -- "\`$(cat said)\`" "$top/docs/MESSAGES.md" || grep -qxF -- "$(cat said)" "$top/README.md" ||
        grep -qF -- "| \`$(sed 's/^p4x: [^ ]*: //; s/ (E[0-9]*)$//' said)\` |" "$top/docs/MESSAGES.md" ||
        wrong "the sentence $(cat said)" ;;
    esac
    output out.p4 "$text"
    output out.pcap "$sent"
    output report.txt "$report"
}

# The program, the entries, the capture, and maybe an option with its value.
carry() {
    status=$1 line=$2 text=$3 sent=$4 report=$5 program14=$6 entries=$7 capture=$8
    shift 8
    expect "$status" "$line" "$text" "$sent" "$report" \
        carry "$program14" "$entries" "$capture" --text out.p4 --sent out.pcap --report report.txt "$@"
}

# The same of a run.
run() {
    status=$1 line=$2 sent=$3 report=$4 program14=$5 entries=$6 capture=$7
    shift 7
    expect "$status" "$line" none "$sent" "$report" run14 "$program14" "$entries" "$capture" --sent out.pcap --report report.txt "$@"
}

# The same of a run of a P4_16 text.
run16() {
    status=$1 line=$2 sent=$3 report=$4 text16=$5 entries=$6 capture=$7
    shift 7
    expect "$status" "$line" none "$sent" "$report" run16 "$text16" "$entries" "$capture" --sent out.pcap --report report.txt "$@"
}

# Entries that break this rule at this line, for a program.
entry() {
    printf '%s\n' "$4" >entry.txt
    run 4 "refused $1 at $2:1" none none "$3" entry.txt frame.pcap
}

# The program with one line changed is refused with this line, and a sentence is said.
changed() {
    awk -v line="$2" -v put="$3" 'NR == line { print put; next } { print }' p1.p4 >changed.p4
    cmp -s changed.p4 p1.p4 && { words=$3; wrong "nothing is changed"; }
    "$program" carry changed.p4 entries.txt in.pcap --text out.p4 --sent out.pcap --report report.txt >printed 2>said
    [ $? -eq 3 ] && [ "$(cat printed)" = "refused $1" ] && [ -s said ] || { words=$3; wrong "$(cat printed)"; }
}

# The program of "What breaks T1 to T12", with this change, is refused by this rule, and a sentence is said.
broken() {
    sed "$2" rules.p4 >broken.p4
    cmp -s broken.p4 rules.p4 && { words=$2; wrong "nothing is changed"; }
    "$program" run16 broken.p4 entries.txt in.pcap --sent out.pcap --report report.txt >printed 2>said
    [ $? -eq 8 ] && [ "$(cat printed)" = "refused $1" ] && [ -s said ] || { words=$2; wrong "$(cat printed)"; }
}

HEAD='\324\303\262\241\002\000\004\000\000\000\000\000\000\000\000\000\377\377\000\000\001\000\000\000'
ZEROS='\000\000\000\000\000\000\000\000\000\000\000\000\000\000\000\000\000\000\000\000'
printf "$HEAD" >none.pcap
: >empty.p4
: >empty.pcap
echo >line.txt
printf x >x.txt
printf 511 >511.txt
printf '5\n511\n' >ports.txt
printf "$ZEROS\000\000\000\000" >zeros.pcap
printf "\324\303\262\241$ZEROS" >version.pcap
printf "$HEAD\000" >short.pcap
printf "$HEAD\001\000\000\000\002\000\000\000\000\000\001\000\000\000\001\000" >long.pcap
printf '$' >dollar.p4
printf 'table_add routes x =>' >three.txt
printf header >header.p4
sed 's/modify_field(.*);/drop();/' p1.p4 >form.p4
truncate -s 1048577 big.p4
truncate -s 4194305 big.txt
truncate -s 16777217 long.txt
truncate -s 1073741825 big.pcap
sed 's/ : lpm;/ : ternary;/' router.p4 >ternary.p4
sed 's/9w3/9w600/' plain16.p4 >wide.p4

# README.md: the run, and a port that is refused.
"$program" carry p1.p4 entries.txt in.pcap --text text --sent out.pcap --report report.txt >/dev/null
carry 0 'carried 1 1 0' text 54 34 p1.p4 entries.txt in.pcap
printf 'sent 3 14\nin 1\nout 1\ncut 0\nwork 6\n' | cmp -s - report.txt || wrong 'the report is another'
awk '/^## The written text$/ { here = 1 } here && /^```$/ { inside = !inside; next } inside' "$top/docs/LANGUAGE16.md" | sed -n "1,$(wc -l <text)p" | cmp -s - text ||
    wrong 'docs/LANGUAGE16.md has another text'
awk '/^These six lines of P4_14/ { here = 1 } here && /^```$/ { if (inside) exit; inside = 1; next } inside' "$top/README.md" | cmp -s - p1.p4 || wrong 'README.md has another program'
carry 5 'refused P2 at 2:1' none none none p1.p4 entries.txt in.pcap --ports ports.txt
cp in.pcap kept.pcap
words='an output that is the capture'
"$program" carry p1.p4 entries.txt in.pcap --text out.p4 --sent ./in.pcap --report report.txt >printed 2>said
[ $? -eq 5 ] && [ "$(cat printed)" = 'refused K1' ] && [ ! -s in.pcap ] || wrong 'the capture stands'
mv kept.pcap in.pcap

# docs/MESSAGES.md
carry 0 'carried 0 0 0' text 24 24 p1.p4 entries.txt none.pcap
carry 1 fault none none none none.p4 entries.txt in.pcap
expect 2 usage none none none
carry 3 'refused L1 at 1:1' none none none dollar.p4 entries.txt in.pcap
carry 3 'refused S1 at 1:7' none none none header.p4 entries.txt in.pcap
carry 3 'refused C2' none none none empty.p4 entries.txt in.pcap
carry 3 'refused C25' none none none form.p4 entries.txt in.pcap
carry 6 'limit program' none none none big.p4 entries.txt in.pcap
carry 4 'refused E1 at 1:1' none none none p1.p4 line.txt in.pcap
carry 5 'refused P1 at 1:1' none none none p1.p4 entries.txt in.pcap --ports x.txt
carry 5 'refused P2 at 1:1' none none none p1.p4 entries.txt in.pcap --ports 511.txt
carry 5 'refused K1' text 0 0 p1.p4 entries.txt empty.pcap
carry 5 'refused K2' text 0 0 p1.p4 entries.txt zeros.pcap
carry 5 'refused K3' text 0 0 p1.p4 entries.txt version.pcap
carry 5 'refused K4' text 24 0 p1.p4 entries.txt short.pcap
carry 5 'refused K5' text 24 0 p1.p4 entries.txt long.pcap
carry 6 'limit ports' none none none p1.p4 entries.txt in.pcap --ports big.txt
carry 6 'limit capture' text 0 0 p1.p4 entries.txt big.pcap
run 0 'ran 1 1 0' 115 47 router.p4 routes.txt frame.pcap
printf 'sent 3 75\nin 1\nout 1\ncut 0\ndirect routed 0 1 0\n' | cmp -s - report.txt || wrong 'the report is another'
run 0 'ran 1 0 0' 24 17 router.p4 entries.txt frame.pcap --rule parallel --passes 65536
run 2 usage none none router.p4 entries.txt frame.pcap --text out.p4
run 3 'refused C2' none none empty.p4 entries.txt in.pcap
entry E1 1 router.p4 x
entry E2 1 router.p4 'table_add x y =>'
entry E3 1 router.p4 'table_add routes x =>'
entry E4 1 router.p4 'table_add routes route =>'
entry E5 1 router.p4 'table_add routes nowhere 1 =>'
entry E6 1 router.p4 'table_add routes nowhere 1/33 =>'
entry E7 1 router.p4 'table_set_default routes nowhere 1'
entry E8 2 router.p4 "$(cat routes.txt routes.txt)"
entry E9 1 ternary.p4 'table_add routes nowhere 1&&&1 =>'
entry E10 1 router.p4 'mirroring_add 32768 1'
entry E11 1 router.p4 'meter_colours m 1'
entry E12 1025 router.p4 "$(seq 0 1024 | sed 's/.*/table_add routes nowhere &\/32 =>/')"
run 5 'refused P2 at 1:1' none none router.p4 routes.txt frame.pcap --ports 511.txt
run 5 'refused K1' 0 0 router.p4 routes.txt empty.pcap
run 5 'refused K4' 24 0 router.p4 routes.txt short.pcap
run 6 'limit entries' none none router.p4 long.txt frame.pcap
run 6 'limit capture' 0 0 router.p4 routes.txt big.pcap
run16 0 'ran 1 1 0' 115 55 router16.p4 routes.txt frame.pcap
printf 'sent 3 75\nin 1\nout 1\ncut 0\ndirect routed 0 1 0\nwork 14\n' | cmp -s - report.txt || wrong 'the report is another'
run16 0 'ran 0 0 0' 24 24 router16.p4 routes.txt none.pcap
run16 0 'ran 1 1 0' 54 34 text entries.txt in.pcap
printf 'sent 3 14\nin 1\nout 1\ncut 0\nwork 6\n' | cmp -s - report.txt || wrong 'the report is another'
run16 2 usage none none router16.p4 entries.txt frame.pcap --rule parallel
run16 8 'refused L1 at 1:1' none none dollar.p4 entries.txt in.pcap
run16 8 'refused S1 at 1:1' none none empty.p4 entries.txt in.pcap
run16 8 'refused T4' none none wide.p4 entries.txt in.pcap
run16 6 'limit text' none none long.txt entries.txt in.pcap
run16 4 'refused E3 at 1:1' none none router16.p4 three.txt frame.pcap
run16 5 'refused K1' 0 0 router16.p4 routes.txt empty.pcap
run16 5 'refused K4' 24 0 router16.p4 routes.txt short.pcap
run16 6 'limit entries' none none router16.p4 long.txt frame.pcap
run16 6 'limit capture' 0 0 router16.p4 routes.txt big.pcap
awk '/^### What breaks T1 to T12/ { here = 1 } here && /^```$/ { if (inside) exit; inside = 1; next } inside' "$top/docs/MESSAGES.md" >rules.p4
run16 0 'ran 1 1 0' 54 34 rules.p4 entries.txt in.pcap
in_ingress='s/^control I(.*{$/&'
broken T1 's/bit<48> b;/bit<48> a;/'
broken T2 's/bit<48> a;/bit<129> a;/'
broken T3 's/9w3/8w3/'
broken T4 's/9w3/9w600/'
broken T5 's/p.emit(hdr.h);/hdr.h.setInvalid(); &/'
broken T6 's/p.extract(hdr.h)/p.extract()/'
broken T7 's/p.extract(hdr.h); transition accept;/transition start;/'
broken T8 "$in_ingress action x() { x(); }/"
broken T9 "$in_ingress action x() { } table t { key = { hdr.h.c : valid; } actions = { x; } }/"
broken T10 's/^control V(.*) { apply { } }/control V(inout hs hdr, inout ms meta, inout standard_metadata_t sm) { apply { mark_to_drop(sm); } }/'
broken T11 '/^control D/d; s/C(), D()/C(), V()/'
broken T12 "$in_ingress register<bit<8>>(0) r;/"
expect 0 accepted none none none check p1.p4
expect 0 eth none none none order p1.p4
for command in check order; do
    expect 1 fault none none none $command none.p4
    expect 2 usage none none none $command p1.p4 entries.txt
    expect 3 'refused L1 at 1:1' none none none $command dollar.p4
    expect 3 'refused S1 at 1:7' none none none $command header.p4
    expect 3 'refused C2' none none none $command empty.p4
    expect 6 'limit program' none none none $command big.p4
done

# docs/CARRY14.md
rm -f out.p4 out.pcap report.txt
changed 'S1 at 3:1' 2 'header eth_t eth'
changed C5 1 'header_type eth_t { fields { a : 48; b : 48; c : 15; } }'
changed C25 4 'action out3() { drop(); }'
changed C25 5 'table t { reads { eth.c : exact; } actions { out3; } default_action : out3(); }'
changed C25 3 'parser start { extract(eth); return select(eth.c) { default : ingress; } }'
changed C25 5 'table t { actions { out3; } default_action : out3(); size : 512; }'
[ ! -e out.p4 ] && [ ! -e out.pcap ] && [ ! -e report.txt ] || { words='a refused program'; wrong 'an output is there'; }

[ $wrong -eq 0 ] && echo 'all examples are as the documents say' || { echo "$wrong wrong"; exit 1; }
