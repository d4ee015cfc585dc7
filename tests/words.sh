#!/usr/bin/env bash
# What the tool, examples/solve.sh and least_cost.sh, the scripts that build and the formula program say of faults:
# tests/words.sh.
#
# Provokes every error that there is, and every refusal, by command lines. Each must end with its documented status and
# say one line, whose first forty characters tell its kind: equal within a kind, different between kinds. So it is with
# the notes that a solver's text was brought into the form that is read, which are lines beside.
# Installs nothing: the solvers here are scripts. RUNGLAET_LIB and RUNGLAET_PROGRAM as in examples/solve.sh.
#
# What stands in single quotes is for those scripts to expand.
# shellcheck disable=SC2016
set -u
root=$(realpath "$(dirname "$0")/..") || exit 2
solve=$root/examples/solve.sh
shuttles=$("$root/tools/shuttles/build.sh") || exit 2
program=$(realpath "${RUNGLAET_PROGRAM:-$("$root/tools/formula_program/build.sh")}") || exit 2
library=$(realpath "${RUNGLAET_LIB:-$root/target/staticlib/librunglaet.a}") || exit 2
export RUNGLAET_PROGRAM=$program RUNGLAET_LIB=$library
folder=$(mktemp -d) || exit 2
trap 'rm -rf "$folder"' EXIT
cd "$folder" || exit 2

passed=0
failed=0

# result FAULT WHAT: counts a case, which has passed where the fault is empty.
result() {
    if [ -z "$1" ]; then
        passed=$((passed + 1))
    else
        failed=$((failed + 1))
        echo "FAILED: $2: $1"
    fi
}

# expect KIND STATUS COMMAND...: the command says one line, of this kind, and ends with this status. A refusal is said
# on standard output, anything else on standard error; only a usage has more lines. `note=SOLVER expect ...`: a note says
# beside that the text was in this solver's form; otherwise there is none.
note=''
expect() {
    local kind=$1 status=$2 got=0 line fault=''
    shift 2
    "$@" >said 2>errors || got=$?
    { grep -a '^refused ' said; grep -av -e '^proving ' -e '^note: ' errors; } >lines
    line=$(head -n 1 lines | tr -d '\0')
    [ "$kind" = Usage ] || [ "$(wc -l <lines)" -eq 1 ] || fault="not one line: $(head -c 400 lines)"
    [ "${#line}" -ge 40 ] || fault="a short line: $line"
    [ "$got" -eq "$status" ] || fault="status $got, not $status: $line"
    noted errors || fault="not the note expected${note:+, $note}: $(grep -a '^note: ' errors)"
    printf '%s\t%s\n' "$kind" "${line:0:40}" >>kinds
    result "$fault" "$kind: $*"
}
# noted FILE: it has the note that is expected, and no other.
noted() {
    local wanted=${note:+1}
    grep -a '^note: ' "$1" >notes
    [ -z "$note" ] || printf 'note %s\t%s\n' "$note" "$(head -c 40 notes)" >>kinds
    [ "$(wc -l <notes)" -eq "${wanted:-0}" ]
}

# The ways a command is run: with a text on standard input, or with a standard input or output that fails.
fed() {
    printf '%b' "$1" >fed
    "${@:2}" <fed
}
full() { "$@" >/dev/full; }
closed() { "$@" >&-; }
of_folder() { "$@" </; }
gone() { "$@" >&9; }
# A pipe whose reader has gone.
mkfifo pipe
exec 8<>pipe
exec 9>pipe
exec 8<&-

description() { printf '%s\n' "${@:2}" >"$1"; }
description path.txt 'vertices 3' 'edge 0 1' 'edge 1 2' 'agent 0 1' 'agent 1 2'
description pair.txt 'vertices 2' 'edge 0 1' 'agent 0 1'
description four.txt 'vertices 4' 'edge 0 1' 'edge 0 3' 'agent 0 3' 'agent 2 0' 'edge 1 2'
mkdir folder

# Errors of the tool: files.
expect Usage 2 "$shuttles"
expect Usage 2 "$shuttles" check path.txt
expect Usage 2 "$shuttles" floor
expect Usage 2 "$shuttles" floor path.txt 2
expect Usage 2 "$shuttles" size path.txt
expect Usage 2 "$shuttles" size path.txt 2 3
expect Usage 2 "$shuttles" pruned path.txt
expect Usage 2 "$shuttles" formula path.txt
expect Usage 2 "$shuttles" refusal 8 9 path.txt 2 3
expect Word 2 "$shuttles" instance $'Fl\344che.txt'
expect Word 2 "$shuttles" check path.txt $'\377'
expect NoFile 2 "$shuttles" instance absent.txt
expect NoFile 2 "$shuttles" check folder/absent 2 0 1
expect NoFile 2 "$shuttles" floor absent.txt
expect NoFile 2 "$shuttles" size absent.txt 2
expect Folder 2 "$shuttles" instance folder
expect Folder 2 "$shuttles" decode / 2
expect Unreadable 2 "$shuttles" show /proc/self/mem 0
expect Unreadable 2 "$shuttles" instance path.txt/absent
expect Input 2 of_folder "$shuttles" decode path.txt 2
expect Input 2 of_folder "$shuttles" check pair.txt 1 -
expect Output 2 full "$shuttles" help
expect Output 2 full "$shuttles" check path.txt 33
expect Output 2 full "$shuttles" floor path.txt
expect Output 2 full "$shuttles" size path.txt 2
expect Output 2 full "$shuttles" pruned path.txt 2
expect Output 2 full "$shuttles" formula path.txt 2 --rule 2
expect Output 2 gone "$shuttles" instance path.txt
expect Output 2 gone "$shuttles" pruned path.txt 32

# Errors of the tool: descriptions.
printf 'vertices 2\n\0' >nul.txt
printf '# Fl\344che\nvertices 2\n' >latin.txt
printf '\357\273\277vertices 2\n' >mark8.txt
printf '\377\376v\0' >mark16.txt
printf '# Mac\rvertices 2\ragent 0 1\r' >mac.txt
printf 'vertices 2\r\nagent 0 \r 1\r\n' >inside.txt
expect NotText 2 "$shuttles" instance nul.txt
expect NotText 2 "$shuttles" instance latin.txt
expect ByteOrderMark 2 "$shuttles" instance mark8.txt
expect ByteOrderMark 2 "$shuttles" instance mark16.txt
expect ByteOrderMark 2 "$shuttles" show mark8.txt
expect CarriageReturn 2 "$shuttles" instance mac.txt
expect CarriageReturn 2 "$shuttles" check inside.txt 1
# described KIND LINE FILE TEXT...: a description whose fault is in this line.
described() {
    description "$3" "${@:4}"
    expect "$1" 2 "$shuttles" instance "$3"
    expect "$1" 2 "$shuttles" check "$3" 1 0
    result "$(grep -q ": line $2: .*: $3\$" errors || cat errors)" "the line of $3"
}
described Keyword 1 d1.txt 'vertex 2'
described Keyword 3 d2.txt 'vertices 2' '' 'Agent 0 1'
described NumberCount 1 d3.txt 'edge 1'
described NumberCount 2 d4.txt '' 'agent 1 2 3'
described NotByte 1 d5.txt 'edge 0 256'
described NotByte 2 d6.txt 'vertices 3' 'agent -1 x'
described NotByte 2 d9.txt 'vertices 3' 'agent - 1'
described NotByte 1 d10.txt 'agent 0 --'
described NumberCount 1 d11.txt 'agent 0 - 1'
# A number 255 is a vertex on no map, and no agent without a destination.
described GoalByte 2 d12.txt 'vertices 3' 'agent 0 255'
described GoalByte 3 d13.txt 'vertices 3' 'agent 0 -' 'agent 1 0255'
described Vertices 1 d7.txt 'grid 16 16'
described Vertices 2 d8.txt 'vertices 255' 'vertices 1'
for _ in $(seq 256); do echo agent 0 0; done >agents.txt
seq -f 'edge 0 1 # %.0f' 65536 >edges.txt
expect Agents 2 "$shuttles" instance agents.txt
cat agents.txt agents.txt >more.txt
expect Agents 2 "$shuttles" show more.txt
expect Edges 2 "$shuttles" instance edges.txt
cat edges.txt path.txt >more.txt
expect Edges 2 "$shuttles" instance more.txt

# Errors of the tool: plans and refusals.
expect PlanWord 2 "$shuttles" check path.txt 2 0 x
expect PlanWord 2 fed '0 256' "$shuttles" encode pair.txt 1 -
expect RefusalWord 2 "$shuttles" refusal x 1
expect RefusalWord 2 "$shuttles" refusal 99999999999 1
expect RefusalWord 2 "$shuttles" refusal 8 -1

# Refusals, with the place in plain terms.
# told TERMS: the place was told like this.
told() { result "$(grep -aqF -- ": $1 (place " lines || echo "not told: $(cat lines)")" "$1"; }
# refuse NUMBER TERMS COMMAND...: refused so, with the place told like this.
refuse() {
    expect "refusal $1" 1 "${@:3}"
    told "$2"
}
# aside NUMBER TERMS COMMAND...: likewise, and standard output stays empty.
aside() {
    refuse "$@"
    result "$(head -c 100 said)" "nothing on standard output: ${*:3}"
}
# unfit NUMBER TERMS FILE: no call takes this instance, with a horizon, a rule and a ceiling or without.
unfit() {
    refuse "$1" "$2" "$shuttles" check "$3" 1
    refuse "$1" "$2" "$shuttles" encode "$3" x
    refuse "$1" "$2" "$shuttles" floor "$3"
    refuse "$1" "$2" "$shuttles" size "$3" 33 --rule 3
    aside "$1" "$2" "$shuttles" input "$3" 1
    aside "$1" "$2" "$shuttles" formula "$3" 1 --rule 3
    aside "$1" "$2" "$shuttles" pruned "$3" 33
    refuse "$1" "$2" "$shuttles" hold "$3" 1 2
    refuse "$1" "$2" "$shuttles" reverse "$3" 1
    aside "$1" "$2" "$shuttles" exchange "$3"
    aside "$1" "$2" "$shuttles" formula "$3" 33 --ceiling 129
    refuse "$1" "$2" "$shuttles" encode "$3" 1 --ceiling 3
    refuse "$1" "$2" fed x "$shuttles" decode "$3" 1 --ceiling 129 --rule 3
}
# bytes OCTAL...: a file of instance bytes.
bytes() { printf '%b' "$(printf '\\0%s' "$@")" >bytes.bin; }
bytes 2 1
unfit 1 '2 bytes given, the sizes take 4' bytes.bin
bytes 2 1 0
unfit 1 '3 bytes given, the sizes take 4' bytes.bin
description r.txt 'agent 0 0'
unfit 2 'the description has 0 vertices' r.txt
bytes 101 1 0 0
unfit 2 'the instance bytes (the file is no text) say 65 vertices' bytes.bin
description r.txt 'vertices 2'
unfit 3 'the description has 0 agents and 2 vertices' r.txt
bytes 2 3 0 0
unfit 3 'the instance bytes (the file is no text) say 3 agents and 2 vertices' bytes.bin
description r.txt 'vertices 2' 'agent 0 1' 'edge 0 1' 'edge 0 1'
unfit 4 'the description has 2 edges, and 2 vertices make 1 pair' r.txt
bytes 3 1 0 10
unfit 4 'the instance bytes (the file is no text) say 2048 edges, and 3 vertices make 3 pairs' bytes.bin
bytes 2 1 1 0 0 1 0
unfit 5 '7 bytes given, 1 edge and 1 agent need 8' bytes.bin
bytes 2 1 1 0 0 1 0 1 1
unfit 5 '9 bytes given, 1 edge and 1 agent need 8' bytes.bin
description r.txt 'vertices 3' 'agent 0 1' 'edge 2 2'
unfit 6 'edge 2-2 (line 3), both ends are one vertex' r.txt
description r.txt 'grid 1 3' 'agent 0 1' 'edge 9 2'
unfit 6 'edge 2-9 (line 3), the map has only vertices 0 to 2' r.txt
bytes 2 1 1 0 1 0 0 1
unfit 6 'edge 1-0, the higher end comes first' bytes.bin
description r.txt 'grid 1 3' 'agent 0 1' 'edge 2 1'
unfit 7 'edge 1-2 (line 3) is there already (line 1)' r.txt
bytes 3 1 2 0 1 0 2 1 0 1
unfit 7 'edge 0-1 comes after edge 1-2' bytes.bin
description r.txt 'vertices 2' 'agent 0 0' '# the other' 'agent 0 1'
unfit 8 'agent 1 (line 4) starts at vertex 0, as agent 0 (line 2) does' r.txt
description r.txt 'vertices 2' 'agent 5 0' 'agent 0 1'
unfit 8 'agent 0 (line 2) starts at vertex 5, the map has only vertices 0 to 1' r.txt
description r.txt 'vertices 2' 'agent 0 1' 'agent 1 1'
unfit 9 'agent 1 (line 3) has its goal at vertex 1, as agent 0 (line 2) does' r.txt
bytes 1 1 0 0 0 1
unfit 9 'agent 0 has its goal at vertex 1, the map has only vertex 0' bytes.bin
# 255 is no goal, and may stand there more than once; 254 is a goal on no map.
description r.txt 'vertices 3' 'agent 0 -' 'agent 1 254' 'agent 2 -'
unfit 9 'agent 1 (line 3) has its goal at vertex 254, the map has only vertices 0 to 2' r.txt
bytes 4 4 0 0 0 1 2 3 377 1 377 1
unfit 9 'agent 3 has its goal at vertex 1, as agent 1 does' bytes.bin
description r.txt 'vertices 2' 'agent 255 -'
unfit 8 'agent 0 (line 2) starts at vertex 255, the map has only vertices 0 to 1' r.txt
for horizon in 33 256 -1 02 +2 x '' 99999999999999999999; do
    refuse 10 "\"$horizon\" was given" "$shuttles" check path.txt "$horizon" 0 1
done
for horizon in 33 256 02 ''; do
    refuse 10 "\"$horizon\" was given" "$shuttles" size path.txt "$horizon"
    aside 10 "\"$horizon\" was given" "$shuttles" input path.txt "$horizon"
    aside 10 "\"$horizon\" was given" "$shuttles" formula path.txt "$horizon"
    aside 10 "\"$horizon\" was given" "$shuttles" pruned path.txt "$horizon" --rule 3
done
refuse 10 '"-1" was given' "$shuttles" encode path.txt -1 0 1
refuse 10 '"02" was given' fed 's UNSATISFIABLE\n' "$shuttles" decode path.txt 02
refuse 13 '3 vertices given, 2 agents at times 0 to 1 need 4' "$shuttles" check path.txt 1  0 1  0
refuse 13 '0 vertices given, 1 agent at times 0 to 0 need 1' "$shuttles" encode pair.txt 0
refuse 17 'agent 1 (line 5) at time 1: at vertex 3, the map has only vertices 0 to 2' "$shuttles" check path.txt 1  0 1  0 3
refuse 17 'agent 0 (line 3) at time 0: at vertex 255, the map has only vertices 0 to 1' "$shuttles" encode pair.txt 1  255  1
refuse 18 'agent 1 (line 5) at time 0: at vertex 2, its start is vertex 1' "$shuttles" check path.txt 1  0 2  0 2
refuse 18 'agent 0 (line 3) at time 0: at vertex 1, its start is vertex 0' "$shuttles" check pair.txt 1  1  1
refuse 19 'agent 0 (line 4) at time 1: from vertex 0 to vertex 2' "$shuttles" check path.txt 1  0 1  2 1
refuse 19 'agent 1 (line 5) at time 2: from vertex 2 to vertex 0' "$shuttles" check path.txt 2  0 1  0 2  0 0
# The floor, which has no horizon: goals that no path leads to, the lowest agent's first.
nowhere='so there is no plan of any makespan'
description r.txt 'vertices 4' 'edge 0 1' '# apart' 'edge 2 3' 'agent 1 0' 'agent 0 3'
refuse 30 "agent 1 (line 6) from vertex 0 to vertex 3, $nowhere" "$shuttles" floor r.txt
description r.txt 'grid 1 3' 'agent 2 3' 'vertices 1' 'agent 3 1'
refuse 30 "agent 0 (line 2) from vertex 2 to vertex 3, $nowhere" "$shuttles" floor r.txt
bytes 2 1 0 0 0 1
refuse 30 "agent 0 from vertex 0 to vertex 1, $nowhere" "$shuttles" floor bytes.bin
refuse 30 "agent 0 (line 6) from vertex 0 to vertex 3, $nowhere" "$shuttles" floor "$root/examples/apart.txt"
# The occupant of the vertex entered stays, goes to the vertex that the agent had, or goes to another.
entered='agent 0 (line 4) at time 1: from vertex 0 to vertex 1,'
for call in check encode; do
    refuse 20 "$entered where agent 1 (line 5) stays" "$shuttles" "$call" path.txt 1  0 1  1 1
    refuse 25 "$entered which agent 1 (line 5) leaves for vertex 0" "$shuttles" "$call" path.txt 1  0 1  1 0
    refuse 26 "$entered which agent 1 (line 5) leaves for vertex 2" "$shuttles" "$call" path.txt 1  0 1  1 2
done
refuse 20 'agent 1 (line 5) at time 1: from vertex 1 to vertex 0, where agent 0 (line 4) stays' "$shuttles" check path.txt 1  0 1  0 0
refuse 26 'agent 1 (line 5) at time 3: from vertex 1 to vertex 0, which agent 0 (line 4) leaves for vertex 3' "$shuttles" check four.txt 3  0 2  0 2  0 1  3 0
description r.txt 'vertices 3' 'edge 0 1' 'edge 1 2' 'agent 0 1' 'agent 2 2'
refuse 21 'agent 1 (line 5) at time 1: at vertex 1, and so is agent 0 (line 4)' "$shuttles" check r.txt 1  0 2  1 1
refuse 21 'agent 1 (line 5) at time 2: at vertex 1, and so is agent 0 (line 4)' "$shuttles" encode r.txt 2  0 2  0 2  1 1
refuse 22 'agent 0 (line 3) at time 0: at vertex 0, its goal is vertex 1' "$shuttles" check pair.txt 0  0
refuse 22 'agent 0 (line 4) at time 1: at vertex 0, its goal is vertex 1' "$shuttles" check path.txt 1  0 1  0 1
# valuation TERMS ENTRIES [DESCRIPTION]: a clause is false at horizon 1, for the pair if for no other.
valuation() { refuse 24 "$1" fed "s SATISFIABLE\nv $2 0\n" "$shuttles" decode "${3:-pair.txt}" 1; }
valuation 'clause 0 of family A (each agent begins at its start), for agent 0 (line 3) at vertex 0 at time 0' '-1 -2 -3 -4'
valuation 'clause 1 of family B (each agent ends at its goal), for agent 0 (line 3) at vertex 1 at time 1' '1 -2 3 -4'
valuation 'clause 5 of family D (no agent is at two vertices at one time), for agent 0 (line 3) at vertices 0 and 1 at time 1' '1 -2 3 4'

# Refusals of what a solver printed, for the pair at horizon 1, which has four variables. Each reason with its line.
# text NUMBER TERMS TEXT: refused so.
text() { refuse "$1" "$2" fed "$3" "$shuttles" decode pair.txt 1; }
from() { "${@:2}" <"$1"; }
text 27 'line 1: a carriage return stands at its end: "s SATISFIABLE\r"' 's SATISFIABLE\r\nv 1 -2 -3 4 0\r\n'
text 27 'line 3: a carriage return stands at its end: "v 1 -2\r"' 'c pasted\r\ns SATISFIABLE\nv 1 -2\r\nv -3 4 0\r\n'
text 27 'line 1: a carriage return stands at its end: "SAT\r"' 'SAT\r\n1 -2 -3 4 0\r\n'
text 27 'line 2: a carriage return stands at its end: "\r"' 's SATISFIABLE\n\r\nv 1 -2 -3 4 0\n'
text 27 'line 1, where the text ends: a carriage return stands at column 14: "s SATISFIABLE\rv 1 -2 -3 4 0\r"' 's SATISFIABLE\rv 1 -2 -3 4 0\r'
text 27 'line 2: a tab stands at column 4: "v 1\t-2 -3 4 0"' 's SATISFIABLE\nv 1\t-2 -3 4 0\n'
text 27 'line 2: a tab stands at column 2: "v\t1 -2 -3 4 0"' 's SATISFIABLE\nv\t1 -2 -3 4 0\n'
text 27 'line 4: a space stands at its beginning: " v 1 -2 -3 4 0"' '\n\ns SATISFIABLE\n v 1 -2 -3 4 0\n'
text 27 'line 1: a space stands at its beginning: " c"' ' c\ns UNSATISFIABLE\n'
text 27 'line 2: two spaces in a row stand at column 7: "v 1 -2  -3 4 0"' 's SATISFIABLE\nv 1 -2  -3 4 0\n'
text 27 'line 2: two spaces in a row stand at column 14: "v 1 -2 -3 4 0  "' 's SATISFIABLE\nv 1 -2 -3 4 0  \n'
text 27 'line 1: a space stands at its end: "s SATISFIABLE "' 's SATISFIABLE \nv 1 -2 -3 4 0\n'
text 27 'line 2: no literal stands behind its v: "v"' 's SATISFIABLE\nv\nv 1 -2 -3 4 0\n'
text 27 'line 3, where the text ends: no literal stands behind its v: "v"' 's SATISFIABLE\nv 1 -2\nv'
text 27 'line 2: no literal stands behind its v: "v "' 's SATISFIABLE\nv \nv 1 -2 -3 4 0\n'
text 27 'line 2: "x" at column 5 is no number: "v 1 x 0"' 's SATISFIABLE\nv 1 x 0\n'
text 27 'line 3, where the text ends: "-" at column 3 is no number: "v -"' 's SATISFIABLE\nv 1\nv -'
text 27 'line 3: "-" at column 3 is no number: "v -"' 's SATISFIABLE\nv 1\nv -\n'
text 27 'line 2, where the text ends: "-" at column 8 is no number: "v 1 -2 -"' 's SATISFIABLE\nv 1 -2 -'
text 27 'line 2: "--1" at column 3 is no number: "v --1 0"' 's SATISFIABLE\nv --1 0\n'
text 27 'line 2: "1\0\xff" at column 3 is no number: "v 1\0\xff"' 's SATISFIABLE\nv 1\0000\0377\n'
text 27 'line 2: "-0" at column 5 has a sign, and 0 has none: "v 1 -0"' 's SATISFIABLE\nv 1 -0\n'
text 27 'line 2: "00" at column 3 begins with a 0: "v 00"' 's SATISFIABLE\nv 00\n'
text 27 'line 2: "-01" at column 3 begins with a 0: "v -01"' 's SATISFIABLE\nv -01\n'
text 27 'line 2: "+1" at column 3 has a plus sign: "v +1 -2"' 's SATISFIABLE\nv +1 -2\n'
text 27 'line 2: "5" at column 13 names a variable that does not exist, the highest is 4: "v 1 -2 -3 4 5 0"' 's SATISFIABLE\nv 1 -2 -3 4 5 0\n'
text 27 'line 2: "-99999999999" at column 3 names a variable that does not exist, the highest is 4: "v -99999999999 0"' 's SATISFIABLE\nv -99999999999 0\n'
text 27 'line 2: "-3" at column 7 stands behind the closing 0: "v 1 0 -3"' 's SATISFIABLE\nv 1 0 -3\n'
text 27 'line 2: "0" at column 15 stands behind the closing 0: "v 1 -2 -3 4 0 0"' 's SATISFIABLE\nv 1 -2 -3 4 0 0\n'
text 27 'line 4: a v line stands behind the closing 0, which is in line 2: "v 4"' 's SATISFIABLE\nv 1 -2 -3 0\nc\nv 4\n'
text 27 'line 3: a second s line, the first is line 1: "s SATISFIABLE"' 's SATISFIABLE\nv 1 -2 -3 4 0\ns SATISFIABLE\n'
text 27 'line 4, where the text ends: a second s line, the first is line 2: "s UNSATISFIABLE"' 'c\ns UNKNOWN\n\ns UNSATISFIABLE'
for verdict in s 's SAT' 's SATISFIABL' 's UNSAT' 's UNK'; do
    text 27 "line 2, where the text ends: its verdict is cut short: \"$verdict\"" "c\n$verdict"
    text 27 "line 1: its verdict is cut short: \"$verdict\"" "$verdict\n"
done
text 27 'line 1: its verdict is none of SATISFIABLE, UNSATISFIABLE and UNKNOWN: "s PERHAPS"' 's PERHAPS\n'
text 27 'line 2: its verdict is none of SATISFIABLE, UNSATISFIABLE and UNKNOWN: "s INDET"' 'c\ns INDET\n'
text 27 'line 2: it begins with none of "c", "s " and "v ": "SATISFIABLE"' 'c minisat prints this where it has no file for its result\nSATISFIABLE\n'
text 27 'line 2: it begins with none of "c", "s " and "v ": "1 -2 -3 4 0"' 's SATISFIABLE\n1 -2 -3 4 0\n'
text 27 'line 2: it begins with none of "c", "s " and "v ": "v1 0"' 's SATISFIABLE\nv1 0\n'
text 27 'line 1: a byte order mark (UTF-8) stands before it: "\u{feff}s SATISFIABLE"' '\0357\0273\0277s SATISFIABLE\nv 1 -2 -3 4 0\n'
text 27 'line 1: a byte order mark (UTF-16) stands before it: "\xff\xfes\0"' '\0377\0376s\0000\n\0000'
text 27 'the text is empty' ''
text 27 'the s line is missing, the text was probably cut short' 'c\n'
text 27 'the s line is missing, the text was probably cut short' 'v 1 -2 -3 4\n'
text 27 'the s line is missing, the beginning of the text was probably not copied' 'v 1 -2\nv -3 4 0\n'
text 27 'the s line is missing, the beginning of the text was probably not copied' 'c s SATISFIABLE\nv 1 -2 -3 4 0\n'
text 27 'the s line is missing, line 1 goes on as a comment behind a carriage return' 'c Mac\rs SATISFIABLE\rv 1 -2 -3 4 0\r'
text 27 'the closing 0 is missing, the text was probably cut short: 0 of 4 literals are there' 's SATISFIABLE'
text 27 'the closing 0 is missing, the text was probably cut short: 3 of 4 literals are there' 's SATISFIABLE\nv 1 -2\nv -3\n'
text 27 'the closing 0 is missing' 's SATISFIABLE\nv 1 -2\nv -3 4\n'
text 27 'the closing 0 is missing, line 3 goes on as a comment behind a carriage return' 's SATISFIABLE\nv 1 -2 -3 4\nc\rv 0\r'
{ printf 's SATISFIABLE\nv '; printf '1 %.0s' {1..998}; echo 1; } >long.txt
refuse 27 'the closing 0 is missing' from long.txt "$shuttles" decode pair.txt 1
echo 'v x' >>long.txt
refuse 27 'line 3: "x" at column 3 is no number: "v x"' from long.txt "$shuttles" decode pair.txt 1
sed -i 's/ 1$/ 1 x/' long.txt
refuse 27 'line 2: "x" at column 2001 is no number: "v 1 1 1 1 1 1 1 1 1 1 1 1 1 1 1 1 1 1 1 1 1 1 1 1 1 1 1 1 1 " and more' from long.txt "$shuttles" decode pair.txt 1
head -c 524289 /dev/zero | tr '\0' '\n' >long.txt
refuse 27 'the text has 524289 bytes, 524288 are the most' from long.txt "$shuttles" decode pair.txt 1
refuse 27 'the text has 524289 bytes, 524288 are the most' from long.txt "$shuttles" decode --numbers pair.txt 1
{ printf 'v 1 \n'; cat long.txt; } >longer.txt
note=cryptominisat refuse 27 'the text has 524293 bytes, 524288 are the most' from longer.txt "$shuttles" decode pair.txt 1
text 28 'line 1: the solver gave up, so there may be a plan or none: "s UNKNOWN"' 's UNKNOWN\n'
text 28 'line 3: the solver gave up, so there may be a plan or none: "s UNKNOWN"' 'c\nv 1 -2\ns UNKNOWN'
text 29 'variable 1, for agent 0 (line 3) at vertex 0 at time 0, is missing' 's SATISFIABLE\nv 0\n'
text 29 'variable 3, for agent 0 (line 3) at vertex 0 at time 1, is missing' 's SATISFIABLE\nv 1 -2 4 0\n'
text 29 'variable 2, for agent 0 (line 3) at vertex 1 at time 0, is there 2 times: -2 in line 2, 2 in line 4 of the text' 's SATISFIABLE\nv 1 -2 -3 4\nc\nv 2 0\n'
text 29 'variable 4, for agent 0 (line 3) at vertex 1 at time 1, is there 5 times: 4 in line 2, 4 in line 2, -4 in line 2, 4 in line 2 of the text and more' 's SATISFIABLE\nv 1 -2 -3 4 4 -4 4\nv 4 0\n'
# In minisat's and in cryptominisat's form.
note=minisat text 27 'line 3: "x" at column 5 is no number: "v 4 x 0"' 'SAT\n1 -2 -3\n4 x 0\n'
note=minisat text 27 'line 2: "v" at column 3 is no number: "v v 1 0"' 'SAT\nv 1 0\n'
note=minisat text 27 'line 2, where the text ends: "-" at column 8 is no number: "v 1 -2 -"' 'SAT\n1 -2 -'
note=minisat text 27 'the closing 0 is missing' 'SAT\n1 -2 -3 4'
note=minisat text 27 'line 3: a v line stands behind the closing 0, which is in line 2: "v UNSAT"' 'SAT\n1 -2 -3 4 0\nUNSAT\n'
note=minisat text 28 'line 1: the solver gave up, so there may be a plan or none: "s UNKNOWN"' 'INDET\n'
note=minisat text 29 'variable 3, for agent 0 (line 3) at vertex 0 at time 1, is missing' 'SAT\n1 -2 4 0\n'
note=cryptominisat text 27 'line 3: a space stands at its end: "s UNKNOWN "' 'v 1 -2 -3 4 \nv 0 \ns UNKNOWN \n'
note=cryptominisat text 28 'line 2: the solver gave up, so there may be a plan or none: "s UNKNOWN"' 'c\ns INDETERMINATE\n'
note=cryptominisat text 29 'variable 2, for agent 0 (line 3) at vertex 1 at time 0, is missing' 's SATISFIABLE\nv 1 -3 \nv 4 0 \n'
# reads STATUS LAST TEXT: not refused; the last line of what is said, and the note.
reads() {
    local got=0 fault=''
    fed "$3" "$shuttles" decode pair.txt 1 >said 2>errors || got=$?
    [ "$got $(tail -n 1 said)" = "$1 $2" ] || fault="status $got: $(cat said errors)"
    noted errors && ! grep -qv '^note: ' errors || fault="said beside: $(cat errors)"
    result "$fault" "reads: $3"
}
passes='plan passes: makespan 1, cost 1'
reads 0 "$passes" 's SATISFIABLE\nv 1 -2 -3 4 0\n'
reads 0 "$passes" 'c\0377\r\n\nv 4 -3\nv -2\ns SATISFIABLE\nv 1\nv 0'
reads 3 'no plan of makespan 1' 'c\ns UNSATISFIABLE\n'
note=minisat reads 0 "$passes" 'SAT\n1 -2 -3 4 0\n'
note=minisat reads 0 "$passes" 'SAT\n\n4 -3\n-2 1\n0'
note=minisat reads 3 'no plan of makespan 1' 'UNSAT\n'
note=cryptominisat reads 0 "$passes" 's SATISFIABLE\nv 1 -2 \nv -3 4 \nv 0 \n'
reads 0 "$passes" "$("$shuttles" encode pair.txt 1 0 1)\n"
{ echo 's SATISFIABLE'; echo 'v 1 -2 -3 4 0'; head -c 524260 /dev/zero | tr '\0' '\n'; } >long.txt
result "$([ "$(wc -c <long.txt) $(from long.txt "$shuttles" decode pair.txt 1 2>&1 | tail -n 1)" = "524288 $passes" ] || echo refused)" \
    'the longest text'
# says TEXT COMMAND...: the command says just this and ends with status 0.
says() { result "$([ "$("${@:2}" 2>&1) $?" = "$1 0" ] || echo said otherwise)" "$1: ${*:2}"; }
# costs COST MAKESPAN DESCRIPTION PLAN...: the plan passes, and that is its cost.
costs() { says "plan passes: makespan $2, cost $1" "$shuttles" check "$3" "$2" "${@:4}"; }
printf 'vertices 2\nedge 0 1\nagent 0 0\n' >home.txt
costs 3 2 "$root/examples/path.txt" 0 1 0 2 1 2
costs 3 3 pair.txt 0 0 0 1
costs 1 3 pair.txt 0 1 1 1
costs 3 4 home.txt 0 1 1 0 0
costs 0 0 home.txt 0
# floors FLOOR DESCRIPTION: that is its floor.
floors() { says "makespan at least $1" "$shuttles" floor "$2"; }
description line32.txt 'grid 1 33' 'agent 0 32'
description line33.txt 'grid 1 34' 'agent 0 33'
description line63.txt 'grid 1 64' 'agent 5 4' 'agent 63 0' 'agent 0 5'
floors 0 home.txt
floors 1 pair.txt
floors 1 path.txt
floors 2 four.txt
floors 32 line32.txt
floors 33 line33.txt
floors 63 line63.txt
# sizes DESCRIPTION M VARIABLES FORMULA WITH-H: these are the variables of both formulas, and the clauses and words of each.
sizes() {
    local got=0 fault
    "$shuttles" size "$1" "$2" >said 2>&1 || got=$?
    fault=$(printf '%s\n' "formula: $3, $4" "with family H: $3, $5" | diff - said)
    [ "$got" -eq 0 ] || fault="status $got: $fault"
    result "$fault" "size: $1 $2"
}
description stay.txt 'vertices 1' 'agent 0 0'
sizes stay.txt 0 '1 variable' '3 clauses, 6 words' '3 clauses, 6 words'
sizes home.txt 0 '2 variables' '4 clauses, 10 words' '5 clauses, 12 words'
sizes pair.txt 1 '4 variables' '8 clauses, 24 words' '10 clauses, 28 words'
sizes "$root/examples/path.txt" 2 '18 variables' '61 clauses, 201 words' '71 clauses, 221 words'
# Where a goal cannot be reached, family H forbids every vertex at every time.
sizes "$root/examples/apart.txt" 2 '12 variables' '31 clauses, 105 words' '43 clauses, 129 words'
# From instance bytes. Of 33 vertices family H leaves one at each of 33 times.
"$shuttles" instance line32.txt >bytes.bin
sizes bytes.bin 32 '1089 variables' '18515 clauses, 58614 words' '19571 clauses, 60726 words'
# The formula with family H: the pair's, and what the formula program prints for the path, with more behind it.
"$shuttles" pruned pair.txt 1 >with-h
printf '%s\n' 'p cnf 4 10' '1 0' '4 0' '1 2 0' '3 4 0' '-1 -2 0' '-3 -4 0' '-1 3 4 0' '-2 4 3 0' '-2 0' '-3 0' >wanted
result "$(diff with-h wanted)" 'the formula of the pair with family H'
"$shuttles" pruned path.txt 2 >with-h
"$shuttles" input path.txt 2 | "$program" >base
h=$(printf -- '-%s 0\n' 2 3 10 12 6 13 7 9 16 17)
result "$(diff with-h <(sed 's/^p cnf 18 61$/p cnf 18 71/' base; echo "$h"))" 'the formula of the path with family H'
# The sizes told are those of the texts: behind the header's four words, each word of a text is one of the formula.
# text_size NAME FILE: the size of a text, told likewise.
text_size() {
    local variables clauses
    read -r _ _ variables clauses <"$2"
    echo "$1: $variables variables, $clauses clauses, $(($(wc -w <"$2") - 4)) words"
}
# same_sizes DESCRIPTION M: of the formula program's text, and of the tool's with family H.
same_sizes() {
    "$shuttles" input "$@" | "$program" >base
    "$shuttles" pruned "$@" >with-h
    "$shuttles" size "$@" >said 2>&1
    result "$({ text_size formula base; text_size 'with family H' with-h; } | diff - said)" "the sizes of the texts: $*"
}
same_sizes four.txt 3
same_sizes "$root/examples/grid4.txt" 6
same_sizes "$root/examples/grid8.txt" 10

# Agents without a destination.
idle=$root/examples/idle.txt
description free.txt 'vertices 2' 'edge 0 1' 'agent 0 -' 'agent 1 1'
description all.txt 'vertices 3' 'agent 2 -' 'agent 0 - # waits' 'agent 1 -'
description roam.txt 'vertices 2' 'edge 0 1' 'agent 0 -'
description lone.txt 'vertices 1' 'agent 0 -'
result "$("$shuttles" instance all.txt | cmp - <(printf '\3\3\0\0\2\0\1\377\377\377') 2>&1)" 'the goal bytes 255'
# A plan is shown with a line before its rows that names them; where every agent has a destination there is no such line.
free_rows=$'without a destination: agent0\nt=0: agent0@0 agent1@1\nt=1: agent0@0 agent1@1'
free_values='1 -2 3 -4 -5 6 -7 8'
says "$free_rows" "$shuttles" show free.txt 0 1 0 1
says $'without a destination: agent0 agent1 agent2\nt=0: agent0@2 agent1@0 agent2@1' "$shuttles" show all.txt 2 0 1
says 't=0: agent0@0 agent1@1' "$shuttles" show path.txt 0 1
says "$free_rows"$'\nplan passes: makespan 1, cost 0' fed "s SATISFIABLE\nv $free_values 0\n" "$shuttles" decode free.txt 1
says $'0 1\n0 1' fed "s SATISFIABLE\nv $free_values 0\n" "$shuttles" decode --numbers free.txt 1
says "s SATISFIABLE"$'\n'"v $free_values"$'\nv 0' "$shuttles" encode free.txt 1 0 1 0 1
"$shuttles" instance free.txt >bytes.bin
says "$free_rows" "$shuttles" show bytes.bin 0 1 0 1
# They end anywhere, but on the map; what they drive costs as it does with a destination.
costs 4 3 "$idle" 0 1  0 3  1 3  2 3
costs 7 4 "$idle" 0 1  0 3  1 3  2 3  2 1
costs 0 0 all.txt 2 0 1
costs 2 2 roam.txt 0 1 0
refuse 17 'agent 0 (line 3) at time 1: at vertex 255, the map has only vertices 0 to 1' "$shuttles" check free.txt 1  0 1  255 1
refuse 22 'agent 0 (line 10) at time 1: at vertex 0, its goal is vertex 2' "$shuttles" check "$idle" 1  0 1  0 3
description r.txt 'grid 1 3' 'agent 0 -' 'agent 1 2'
refuse 22 'agent 1 (line 3) at time 1: at vertex 1, its goal is vertex 2' "$shuttles" encode r.txt 1  0 1  0 1
# Their goals are at no distance, and none is out of reach: agent 0 stands alone.
floors 0 all.txt
floors 2 "$idle"
description r.txt 'vertices 3' 'edge 0 1' 'agent 2 -' 'agent 0 1'
floors 1 r.txt
description r.txt 'vertices 3' 'edge 0 1' 'agent 2 -' 'agent 0 2'
refuse 30 "agent 1 (line 4) from vertex 0 to vertex 2, $nowhere" "$shuttles" floor r.txt
# Family B has no clause for them, so the clauses behind it have lower numbers; family H goes by their starts alone.
sizes lone.txt 0 '1 variable' '2 clauses, 4 words' '2 clauses, 4 words'
sizes roam.txt 1 '4 variables' '7 clauses, 22 words' '8 clauses, 24 words'
sizes free.txt 1 '8 variables' '23 clauses, 70 words' '26 clauses, 76 words'
sizes "$idle" 2 '24 variables' '89 clauses, 300 words' '101 clauses, 324 words'
sizes "$idle" 3 '32 variables' '123 clauses, 418 words' '136 clauses, 444 words'
same_sizes "$idle" 3
same_sizes all.txt 2
says "$(printf '%s\n' 'p cnf 4 8' '1 0' '1 2 0' '3 4 0' '-1 -2 0' '-3 -4 0' '-1 3 4 0' '-2 4 3 0' '-2 0')" "$shuttles" pruned roam.txt 1
valuation 'clause 1 of family A (each agent begins at its start), for agent 1 (line 4) at vertex 1 at time 0' '1 -2 3 -4 5 -6 -7 8' free.txt
valuation 'clause 2 of family B (each agent ends at its goal), for agent 1 (line 4) at vertex 1 at time 1' '1 -2 3 -4 -5 6 7 -8' free.txt
valuation 'clause 5 of family C (each agent is at some vertex at each time), for agent 0 (line 3) at vertices 0 to 1 at time 1' '1 -2 -3 -4 -5 6 -7 8' free.txt
expect 'refusal 24' 0 "$shuttles" refusal 24 22 free.txt 1
told 'clause 22 of family G (no agent enters a vertex where another stood as the step began), for agent 1 (line 4) at vertex 1 at time 1, where agent 0 (line 3) is at time 0'
expect 'refusal 24' 0 "$shuttles" refusal 24 23 free.txt 1
told 'the place is a clause'
# With one vertex the clause of A and that of C are the same.
expect 'refusal 24' 0 "$shuttles" refusal 24 1 lone.txt 0
told 'clause 1 of family C (each agent is at some vertex at each time), for agent 0 (line 2) at vertices 0 to 0 at time 0'
# What the library does not refuse: 8 is the goal byte, 2 the byte of the plan's last row.
for subject in '9 8' '22 2' '30 8'; do
    # shellcheck disable=SC2086  # Words of the command.
    expect "refusal ${subject% *}" 0 "$shuttles" refusal $subject free.txt 1
    told 'agent 0 (line 3) has no destination'
done

# Refusals that the library does not give for what the tool asks of it.
for number in 11 12 14 15 16 23; do
    expect "refusal $number" 0 "$shuttles" refusal "$number" 24
    expect "refusal $number" 0 "$shuttles" refusal "$number" 8 path.txt 2
done
expect 'refusal 14' 0 "$shuttles" refusal 14 3 pair.txt 1
told '3 entries given, 1 agent on 2 vertices at times 0 to 1 need 4'
expect 'refusal 23' 0 "$shuttles" refusal 23 2 pair.txt 1
told 'entry 2 must be 3 or -3, for agent 0 (line 3) at vertex 0 at time 1'
# Of two agents: each has its variables of all times in one stretch.
expect 'refusal 23' 0 "$shuttles" refusal 23 3 path.txt 2
told 'entry 3 must be 4 or -4, for agent 0 (line 4) at vertex 0 at time 1'
# Without a horizon an index does not tell the variable.
expect 'refusal 23' 0 "$shuttles" refusal 23 3 path.txt
told 'the place is an entry of the valuation'
for subject in '' 'pair.txt' 'pair.txt 1'; do
    # shellcheck disable=SC2086  # Words of the command.
    expect 'refusal 27' 0 "$shuttles" refusal 27 45 $subject
    told "the place is the first byte of a wrong line, the text's length, or 524288"
    # shellcheck disable=SC2086  # Words of the command.
    expect 'refusal 28' 0 "$shuttles" refusal 28 45 $subject
    told 'the place is the first byte of the s line'
done
# Without a horizon a number does not tell the variable.
for subject in '3' '0 pair.txt' '67 pair.txt'; do
    # shellcheck disable=SC2086  # Words of the command.
    expect 'refusal 29' 0 "$shuttles" refusal 29 $subject
    told 'the place is a variable'
done
expect 'refusal 29' 0 "$shuttles" refusal 29 3 pair.txt 1
told 'variable 3, for agent 0 (line 3) at vertex 0 at time 1'
expect 'refusal 29' 0 "$shuttles" refusal 29 4 pair.txt 1
told 'variable 4, for agent 0 (line 3) at vertex 1 at time 1'
expect 'refusal 29' 0 "$shuttles" refusal 29 10 path.txt 2
told 'variable 10, for agent 1 (line 5) at vertex 0 at time 0'
for subject in '0 pair.txt 1' '5 pair.txt 1' '18446744073709551615 pair.txt 1' '3 pair.txt 0'; do
    # shellcheck disable=SC2086  # Words of the command.
    expect 'refusal 29' 0 "$shuttles" refusal 29 $subject
    told 'the formula has no such variable'
done
for subject in '' 'pair.txt' 'home.txt'; do
    # 6 is the pair's start; both instances have 8 bytes.
    # shellcheck disable=SC2086  # Words of the command.
    expect 'refusal 30' 0 "$shuttles" refusal 30 6 $subject
    told 'the place is a byte of the instance'
done
expect 'refusal 30' 0 "$shuttles" refusal 30 8 pair.txt
told 'the place is a byte of the instance'
expect 'refusal 30' 0 "$shuttles" refusal 30 7 pair.txt 1
told "agent 0 (line 3) from vertex 0 to vertex 1, $nowhere"
for number in 20 25 26; do
    expect "refusal $number" 0 "$shuttles" refusal "$number" 2
    told 'the place is a byte of the plan'
    expect "refusal $number" 0 "$shuttles" refusal "$number" 2 path.txt
    told 'agent 0 (line 4) at time 1'
done
expect 'refusal 24' 0 "$shuttles" refusal 24 33 path.txt 1
told 'clause 33 of family G (no agent enters a vertex where another stood as the step began), for agent 0 (line 4) at vertex 1 at time 1, where agent 1 (line 5) is at time 0'
for number in 0 36 4294967295; do
    expect "refusal $number" 0 "$shuttles" refusal "$number" 1
    expect "refusal $number" 0 "$shuttles" refusal "$number" 18446744073709551615 path.txt 2
done

# solve.sh, with a solver that does what FAKE says; $2 is the formula and $3 the file for minisat's result.
mkdir fake bare
printf '#!/bin/sh\neval "$FAKE"\n' | tee fake/minisat >fake/cryptominisat5
chmod +x fake/minisat fake/cryptominisat5
ln -s /usr/bin/* bare 2>/dev/null
rm -f bare/{cargo,rt,cadical,kissat,minisat,picosat,cryptominisat5}
# with FAKE COMMAND...: nothing on the path but the fake solver; no cargo and no rt either.
with() { env FAKE="$1" PATH="$folder/fake:$folder/bare" "${@:2}"; }
plan='printf "SAT\n1 -2 -3 4 0\n" >$3; exit 10'
# solves STATUS FAKE LAST COMMAND...: the command ends with this status and this last line, and nothing is complained of.
solves() {
    local got=0 fault=''
    with "$2" "${@:4}" >said 2>&1 || got=$?
    [ "$got $(tail -n 1 said)" = "$1 $3" ] || fault="status $got: $(cat said)"
    noted said || fault="not the note expected: $(cat said)"
    ! grep -qE '^(shuttles|shuttles/build\.sh|solve\.sh): ' said || fault="a complaint: $(cat said)"
    result "$fault" "${*:4}"
}
printed='printf "s SATISFIABLE\nv 1 -2 -3 4 \nv 0\n"; exit 10'
note=minisat solves 0 "$plan" "$passes" "$solve" pair.txt 1
note=minisat solves 0 "$plan" "$passes" env LIMIT=9 KEEP=kept "$solve" pair.txt 1
note=minisat solves 3 'echo UNSAT >$3; exit 20' 'no plan of makespan 1' "$solve" pair.txt 1
note=minisat solves 0 "$plan" "$passes" "$solve" <(cat pair.txt) 1
note=cryptominisat solves 0 "$printed" "$passes" env SOLVER=cryptominisat5 "$solve" pair.txt 1
solves 0 "${printed/ \\n/\\n}" "$passes" env SOLVER=cryptominisat5 "$solve" pair.txt 1
solves 3 'echo s UNSATISFIABLE; exit 20' 'no plan of makespan 1' env SOLVER=cryptominisat5 "$solve" pair.txt 1

# Without a horizon: from the floor on. That of the pair is 1, where the plan is.
note=minisat solves 0 "$plan" "$passes" "$solve" pair.txt
note=minisat solves 0 "$plan" "$passes" env LIMIT=9 KEEP=kept "$solve" pair.txt
note=minisat solves 0 "$plan" "$passes" "$solve" <(cat pair.txt)
note=minisat solves 0 "$plan" "$passes" env RUNGLAET_PROGRAM=absent "$solve" pair.txt
note=cryptominisat solves 0 "$printed" "$passes" env SOLVER=cryptominisat5 "$solve" pair.txt
# shows STATUS NOTES FAKE TEXT COMMAND...: the command ends with this status, standard output has just this text, and
# standard error as many notes and nothing else.
shows() {
    local got=0 fault=''
    with "$3" "${@:5}" >said 2>errors || got=$?
    [ "$got" -eq "$1" ] || fault="status $got: $(cat said errors)"
    printf '%s\n' "$4" | cmp -s - said || fault="said otherwise: $(cat said errors)"
    [ "$(grep -c '^note: ' errors) $(wc -l <errors)" = "$2 $2" ] || fault="not $2 notes alone: $(cat errors)"
    result "$fault" "${*:5}"
}
# after FAKE [VARIABLES]: a solver that finds no plan while the formula has so many variables, and then does so; if none
# are given 12, which the path's formula has at horizon 1.
after() { printf 'read -r _ _ n _ <$2; [ $n != %s ] || { echo s UNSATISFIABLE >$3; exit 20; }; %s' "${2:-12}" "$1"; }
at1='path.txt, horizon 1: 12 variables, 46 clauses, minisat: '
at2='path.txt, horizon 2: 18 variables, 71 clauses, minisat: '
rows=$'t=0: agent0@0 agent1@1\nt=1: agent0@0 agent1@2\nt=2: agent0@1 agent1@2\nplan passes: makespan 2, cost 3'
path_plan='printf "SAT\n1 -2 -3 4 -5 -6 -7 8 -9 -10 11 -12 -13 -14 15 -16 -17 18 0\n" >$3; exit 10'
shows 0 1 "$(after "$path_plan")" "${at1}no plan"$'\n'"${at2}a plan"$'\n'"$rows" env KEEP=last "$solve" path.txt
result "$(cd last && diff <(printf '%s\n' *) <(printf '%s\n' formula.cnf instance.bin output.txt))" 'what KEEP keeps'
result "$("$shuttles" pruned path.txt 2 | cmp - last/formula.cnf 2>&1)" 'the formula of the last horizon is kept'
result "$(head -n 1 last/output.txt | diff - <(echo SAT))" 'the output of the last horizon is kept'
# A note is said once for each change that it tells of.
shows 0 2 "$(after "$path_plan" | sed 's/s UNSATISFIABLE/UNSAT/')" "${at1}no plan"$'\n'"${at2}a plan"$'\n'"$rows" "$solve" path.txt
# No plan up to 32; the pair's formula at m has 2(m+1) variables and 4m+6 clauses.
none=$(for m in {1..32}; do echo "pair.txt, horizon $m: $((2 * m + 2)) variables, $((4 * m + 6)) clauses, minisat: no plan"; done)
none+=$'\nno plan of makespan 0 to 32'
shows 3 1 'echo UNSAT >$3; exit 20' "$none" "$solve" pair.txt
shows 3 0 'echo s UNSATISFIABLE >$3; exit 20' "$none" "$solve" pair.txt
# A floor of 0, of 32 and above; above it no solver is asked.
shows 0 1 'printf "SAT\n1 -2 0\n" >$3; exit 10' $'home.txt, horizon 0: 2 variables, 5 clauses, minisat: a plan\nt=0: agent0@0\nplan passes: makespan 0, cost 0' "$solve" home.txt
# Without a destination: the others' goals give the floor, and it is 0 where there are none.
idle_plan='printf "SAT\n1 -2 -3 -4 5 -6 -7 -8 -9 10 -11 -12 -13 -14 15 -16 -17 18 -19 -20 -21 -22 -23 24 -25 -26 -27 28 -29 -30 -31 32 0\n" >$3; exit 10'
idle_rows=$'without a destination: agent1\nt=0: agent0@0 agent1@1\nt=1: agent0@0 agent1@3\nt=2: agent0@1 agent1@3\nt=3: agent0@2 agent1@3\nplan passes: makespan 3, cost 4'
idle2='idle.txt, horizon 2: 24 variables, 101 clauses, minisat: no plan'
idle3='idle.txt, horizon 3: 32 variables, 136 clauses, minisat: a plan'
shows 0 1 "$(after "$idle_plan" 24)" "$idle2"$'\n'"$idle3"$'\n'"$idle_rows" "$solve" "$idle"
shows 0 1 "$idle_plan" $'idle.txt, horizon 3: 32 variables, 123 clauses, minisat\n'"$idle_rows" "$solve" "$idle" 3
shows 0 1 'printf "SAT\n1 0\n" >$3; exit 10' $'lone.txt, horizon 0: 1 variables, 2 clauses, minisat: a plan\nwithout a destination: agent0\nt=0: agent0@0\nplan passes: makespan 0, cost 0' "$solve" lone.txt
# 18,515 clauses of the base formula, and 1,056 of family H: at each time one vertex of 33 is left.
clauses=19571
shows 3 1 'echo UNSAT >$3; exit 20' "line32.txt, horizon 32: 1089 variables, $clauses clauses, minisat: no plan"$'\nno plan of makespan 0 to 32' "$solve" line32.txt
for floor in 33 63; do
    shows 3 0 "touch $folder/asked" "no plan of makespan 0 to 32: the floor is $floor, the greatest distance from a start to its goal" "$solve" "line$floor.txt"
done
# A goal that no path leads to, and an instance that is refused: at once.
description r.txt 'vertices 4' 'edge 0 1' 'edge 2 3' 'agent 0 3'
refuse 30 "agent 0 (line 4) from vertex 0 to vertex 3, $nowhere" with "touch $folder/asked" "$solve" r.txt
description r.txt 'vertices 2' 'agent 0 1' 'agent 1 1'
refuse 9 'agent 1 (line 3) has its goal at vertex 1, as agent 0 (line 2) does' with "touch $folder/asked" "$solve" r.txt
result "$(ls asked 2>/dev/null)" 'no solver is asked where the floor tells'

expect solve-words 2 with "$plan" "$solve"
expect solve-words 2 with "$plan" "$solve" pair.txt 1 2
expect solve-limit 2 with "$plan" env LIMIT=x "$solve" pair.txt
expect solve-limit 2 with "$plan" env LIMIT=0 "$solve" pair.txt 1
expect solve-unknown-solver 2 with "$plan" env SOLVER=glucose "$solve" pair.txt 1
expect solve-unknown-solver 2 with "$plan" env SOLVER='cadical kissat' "$solve" pair.txt
expect solve-absent-solver 2 with "$plan" env SOLVER=kissat "$solve" pair.txt 1
expect solve-absent-solver 2 with "$plan" env SOLVER=picosat "$solve" pair.txt
expect solve-no-solver 2 env PATH="$folder/bare" "$solve" pair.txt 1
expect solve-no-solver 2 env PATH="$folder/bare" SOLVER= "$solve" path.txt
expect solve-program 2 with "$plan" env RUNGLAET_PROGRAM=absent "$solve" pair.txt 1
expect solve-program 2 with "$plan" env RUNGLAET_PROGRAM=folder "$solve" pair.txt 1
expect solve-program 2 with "$plan" env RUNGLAET_PROGRAM=pair.txt "$solve" pair.txt 1
expect solve-keep 2 with "$plan" env KEEP=pair.txt "$solve" pair.txt 1
expect solve-keep 2 with "$plan" env KEEP=/proc/folder "$solve" pair.txt
expect solve-temporary 2 with "$plan" env TMPDIR=absent "$solve" pair.txt 1
expect solve-temporary 2 with "$plan" env TMPDIR=/proc "$solve" pair.txt
mkdir -p taken/formula.cnf
expect solve-files 2 with "$plan" env KEEP=taken "$solve" pair.txt 1
expect solve-files 2 with "$plan" env KEEP=taken "$solve" pair.txt
expect solve-files 2 with "$plan" env KEEP=/proc "$solve" pair.txt 1
for horizon in '' 1; do
    # shellcheck disable=SC2086  # A word, or none.
    for way in full gone; do expect solve-output 2 "$way" with "$plan" "$solve" pair.txt $horizon; done
    # shellcheck disable=SC2086
    expect solve-closed 2 closed with "$plan" "$solve" pair.txt $horizon
done
expect solve-output 2 full with "$plan" "$solve" pair.txt 33
expect solve-output 2 full with "$plan" "$solve" line33.txt
expect solve-output 2 full with "$plan" "$solve" "$root/examples/apart.txt"
expect solve-closed 2 closed with "$plan" "$solve" absent.txt 1
# The reader goes, and takes no more of a line that has begun.
going() { with "sleep 0.3; $plan" "$solve" pair.txt | head -c 9 >/dev/null; return "${PIPESTATUS[0]}"; }
expect solve-output 2 going

# solve.sh and what the tool says.
expect NoFile 2 with "$plan" "$solve" absent.txt 1
expect Folder 2 with "$plan" "$solve" folder 1
expect NotText 2 with "$plan" "$solve" nul.txt 1
expect ByteOrderMark 2 with "$plan" "$solve" mark8.txt 1
expect CarriageReturn 2 with "$plan" "$solve" mac.txt 1
expect Keyword 2 with "$plan" "$solve" d1.txt 1
expect GoalByte 2 with "$plan" "$solve" d12.txt 1
expect GoalByte 2 with "$plan" "$solve" d12.txt
expect NoFile 2 with "$plan" "$solve" absent.txt
expect Keyword 2 with "$plan" "$solve" d1.txt
description r.txt 'vertices 2' 'agent 0 1' 'agent 1 1'
refuse 9 'agent 1 (line 3) has its goal at vertex 1, as agent 0 (line 2) does' with "$plan" "$solve" r.txt 99
for horizon in 33 256 -1 02 x 99999999999999999999; do
    refuse 10 "\"$horizon\" was given" with "$plan" "$solve" pair.txt "$horizon"
done
# solver NUMBER TERMS FAKE: what the solver printed is refused so, at a horizon and on the climb.
solver() {
    refuse "$1" "$2" with "$3" "$solve" pair.txt 1
    refuse "$1" "$2" with "$3" "$solve" pair.txt
    result "$(head -n 1 said | grep -v '^pair.txt, horizon 1: .*, minisat: its output is refused$')" "the line: $1: $3"
}
solver 27 'the text is empty' 'exit 10'
solver 27 'the text is empty' 'exit 20'
solver 27 'line 1: its verdict is cut short: "s SAT"' 'echo s SAT >$3; exit 10'
solver 27 'line 1, where the text ends: its verdict is cut short: "s UNSAT"' 'printf "s UNSAT" >$3; exit 20'
note=minisat solver 27 'the closing 0 is missing, the text was probably cut short: 3 of 4 literals are there' 'printf "SAT\n1 -2 -3" >$3; exit 10'
note=minisat solver 28 'line 1: the solver gave up, so there may be a plan or none: "s UNKNOWN"' 'echo INDET >$3; exit 10'
note=minisat solver 28 'line 1: the solver gave up, so there may be a plan or none: "s UNKNOWN"' 'echo INDET >$3; exit 20'
note=minisat solver 29 'variable 3, for agent 0 (line 3) at vertex 0 at time 1, is missing' 'printf "SAT\n1 -2 0\n" >$3; exit 10'
note=minisat solver 24 'clause 0 of family A (each agent begins at its start), for agent 0 (line 3) at vertex 0 at time 0' 'printf "SAT\n-1 -2 -3 -4 0\n" >$3; exit 10'

# At a later horizon; what was printed at an earlier one is not read again.
refuse 27 'the text is empty' with "$(after 'exit 20')" "$solve" path.txt
refuse 27 'line 1: its verdict is cut short: "s SAT"' with "$(after 'echo s SAT >$3; exit 10')" "$solve" path.txt
result "$(head -n 2 said | diff - <(printf '%s\n' "${at1}no plan" "${at2}its output is refused"))" 'the lines of a later horizon'

# solve.sh and the formula program.
# prints SCRIPT: a program in the formula program's place, which can call it as "$program".
prints() {
    printf '#!/bin/sh\nprogram=%q\n%s\n' "$program" "$1" >prints
    chmod +x prints
    expect "$2" "$3" with "$plan" env RUNGLAET_PROGRAM=./prints "$solve" pair.txt 1
}
prints 'cat' solve-no-formula 2
prints 'exit 1' solve-no-formula 2
prints 'exit 2' solve-program-failed 2
prints '"$program"; kill -9 $$' solve-program-failed 2
prints '"$program" | head -n 5' solve-not-whole 2
prints '"$program" | head -c 30' solve-not-whole 2
prints '"$program" | head -c -1' solve-not-whole 2
prints '"$program" | head -c -2; echo' solve-not-whole 2
prints '"$program"; echo 1 0' solve-not-whole 2
prints '"$program"; printf 1' solve-not-whole 2
prints '"$program" | sed 3d' solve-not-whole 2
prints 'echo p cnf 4 x' solve-not-whole 2
prints 'echo c refused 8 6; exit 1' 'refusal 8' 1
prints 'echo c refused 9 7; exit 1' 'refusal 9' 1

# solve.sh and the tool, in a copy that has no formula program and whose tool does something else for one word.
mkdir other
(cd "$root" && tar -c --exclude target tools examples) | tar -x -C other
printf '#!/bin/sh\necho "%s"\n' "$folder/tool" >other/tools/shuttles/build.sh
printf '#!/bin/sh\nexit 2\n' >other/tools/formula_program/build.sh
# tool WORD SCRIPT: the tool, which can be called as "$shuttles", but for this word.
tool() {
    printf '#!/bin/sh\nshuttles=%q\n[ "$1" = %s ] || exec "$shuttles" "$@"\n%s\n' "$shuttles" "$1" "$2" >tool
    chmod +x tool
}
# prints_other WORD SCRIPT KIND STATUS: on the climb, with such a tool.
prints_other() {
    tool "$1" "$2"
    expect "$3" "$4" with "$plan" other/examples/solve.sh pair.txt
}
tool none ''
note=minisat solves 0 "$plan" "$passes" other/examples/solve.sh pair.txt
for word in instance floor pruned decode; do
    prints_other "$word" 'kill -9 $$' solve-no-answer 2
    prints_other "$word" 'exit 1' solve-no-answer 2
    prints_other "$word" 'exit 2' solve-no-answer 2
done
result "$(grep -v ', minisat: no verdict$' said)" 'the line is ended where the tool gave no answer'
prints_other floor 'exit 0' solve-no-answer 2
prints_other floor 'echo makespan at least x' solve-no-answer 2
prints_other pruned 'exec "$shuttles" pruned "$2" 33' 'refusal 10' 1
prints_other pruned 'exec "$shuttles" pruned absent "$3"' NoFile 2
prints_other decode 'exec "$shuttles" decode absent "$3"' NoFile 2
for cut in 'head -n 5' 'head -c -1' 'head -c 30' 'sed 3d' true; do
    prints_other pruned "\"\$shuttles\" \"\$@\" | $cut" solve-not-whole 2
done
tool decode 'kill -9 $$'
expect solve-no-answer 2 with "$plan" env RUNGLAET_PROGRAM="$program" other/examples/solve.sh pair.txt 1

# solve.sh and the solver's end.
# ends KIND FAKE [LIMIT [LATER]]: at a horizon, at the first horizon of a climb, and at its second, where the path's solver
# does as LATER says. All lines are ended.
ends() {
    local words
    for words in 'pair.txt 1' pair.txt; do
        # shellcheck disable=SC2086  # Words of the command.
        expect "$1" 2 with "$2" env LIMIT="${3:-}" "$solve" $words
    done
    result "$(grep -v '^pair.txt, horizon 1: .*, minisat: no verdict$' said)" "the line: $1: $2"
    expect "$1" 2 with "$(after "${4:-$2}")" env LIMIT="${3:-}" "$solve" path.txt
    result "$(diff said <(printf '%s\n' "${at1}no plan" "${at2}no verdict"))" "the lines: $1: $2"
}
ends solve-time 'exec sleep 9' 1
ends solve-time 'kill -XCPU $$'
ends solve-killed 'kill -KILL $$'
ends solve-killed 'kill -TERM $$' 9
ends solve-killed 'kill -SEGV $$'
ends solve-gave-up 'exit 0'
ends solve-gave-up 'echo INDET >$3; exit 0'
ends solve-gave-up 'echo s UNKNOWN >$3; exit 0'
ends solve-gave-up 'echo s UNKNOWN >$3; exit 30'
ends solve-gave-up 'echo s INDETERMINATE >$3; exit 15'
ends solve-not-started 'exit 126'
ends solve-not-started 'exit 127'
ends solve-status 'exit 1'
ends solve-status 'exit 255'
ends solve-status 'exit 124'
note=minisat ends solve-disagreement 'echo UNSAT >$3; exit 10'
note=minisat ends solve-disagreement "${plan/exit 10/exit 20}" '' "${path_plan/exit 10/exit 20}"
ends solve-disagreement 'echo s UNSATISFIABLE >$3; exit 10'
# A signal ends the solver too: each has said who it is, and is gone soon after.
for signal in TERM HUP; do
    rm -f solver
    ends solve-signal "echo \$\$ >>$folder/solver; kill -$signal \$PPID; exec sleep 9"
    fault='not every solver ran'
    if [ "$(wc -l <solver)" -eq 3 ]; then
        mapfile -t ran <solver
        # It succeeds where one of them is there.
        for _ in {1..40}; do
            kill -0 "${ran[@]}" 2>/dev/null || break
            sleep 0.05
        done
        kill -0 "${ran[@]}" 2>/dev/null && fault='one outlived its run' || fault=''
    fi
    result "$fault" "the solvers of runs ended by $signal"
done

# solve.sh where files can't grow, as on a full disk.
small() { (ulimit -f "$1" && "${@:2}"); }
expect solve-room 2 small 1 with "$plan" "$solve" pair.txt 1
expect solve-room 2 small 7 with "$plan" "$solve" path.txt 2
expect solve-room 2 small 7 with "$plan" "$solve" path.txt
expect Output 2 small 9 with "$plan" "$solve" "$root/examples/grid4.txt"

# shellcheck source=tests/words_rule.sh
. "$root/tests/words_rule.sh"
# shellcheck source=tests/words_reversing.sh
. "$root/tests/words_reversing.sh"
# shellcheck source=tests/words_ceiling.sh
. "$root/tests/words_ceiling.sh"
# shellcheck source=tests/words_tally.sh
. "$root/tests/words_tally.sh"

# tools/shuttles/build.sh. The tool that is built needs no cargo; a copy of the sources has nothing built.
solves 0 '' "$shuttles" "$root/tools/shuttles/build.sh"
mkdir copy
(cd "$root" && tar -c --exclude target tools examples) | tar -x -C copy
mkdir -p copy/crates/runglaet copy/crates/formula_printer_c
build=copy/tools/shuttles/build.sh
builds() { expect "$1" 2 env PATH="$folder/extra:$folder/fake:$folder/bare" RUNGLAET_LIB="$2" "${@:3}"; }
mkdir extra
builds build-no-rt '' "$build"
builds build-no-rt '' copy/examples/solve.sh pair.txt 1
builds build-no-cargo "$library" "$build"
builds build-no-cargo "$library" copy/examples/solve.sh pair.txt 1
builds build-no-cargo "$library" copy/examples/solve.sh pair.txt
printf '#!/bin/sh\necho no proof\nexit 1\n' | tee extra/rt >extra/cargo
chmod +x extra/rt extra/cargo
builds build-rt-failed '' "$build"
builds build-rt-failed '' copy/examples/solve.sh pair.txt 1
builds build-cargo-failed "$library" "$build"
builds build-cargo-failed "$library" copy/examples/solve.sh pair.txt 1
builds build-no-library absent "$build"
builds build-no-library folder "$solve" pair.txt 1
builds build-no-archive pair.txt "$build"
builds build-no-archive mark16.txt "$solve" pair.txt 1
rm -r copy/target
echo >copy/target
builds build-no-folder '' "$build"
builds build-no-folder "$library" copy/examples/solve.sh pair.txt 1

# tools/formula_program/build.sh, likewise.
rm copy/target
rm extra/*
build=copy/tools/formula_program/build.sh
builds program-no-rt '' "$build"
builds program-no-rt "$library" "$build"
printf '#!/bin/sh\necho no proof\nexit 1\n' >extra/rt
chmod +x extra/rt
builds program-rt-failed '' "$build"
builds program-rt-failed "$library" "$build"
mkdir -p copy/target/staticlib
echo >copy/target/staticlib/libformula_printer.a
builds program-no-compiler '' env CC=absent "$build"
builds program-no-compiler '' env CC=folder/absent "$build"
printf '#!/bin/sh\nexit 1\n' >extra/cc
chmod +x extra/cc
builds program-link-failed '' "$build"
builds program-link-failed '' env CC="$folder/extra/cc" "$build"
rm extra/rt
builds program-link-no-rt '' "$build"
builds program-link-no-rt '' env CC="$folder/extra/cc" "$build"
rm -r copy/target
echo >copy/target
builds program-no-folder '' "$build"
builds program-no-folder "$library" "$build"

# The formula program.
printf '\1\2\1\1\0\0\1\0\1' >input.bin
runs() { "$program" <"${1:-input.bin}"; }
expect program-input 2 runs /
expect program-input 2 eval '"$program" <&-'
expect program-output 2 full runs
expect program-output 2 closed runs

# Every kind has one beginning, and every beginning one kind.
sort -u kinds >pairs
many=$(cut -f 1 pairs | uniq -d)
result "${many:+$many}" "kinds with several beginnings"
shared=$(cut -f 2 pairs | sort | uniq -d)
result "${shared:+$shared}" "beginnings of several kinds"

# Every error and every refusal that the sources have was seen here.
sed -n 's/^    [A-Z][A-Za-z]*: "\(.*\)",$/shuttles: \1/p' "$root/tools/shuttles/src/errors.rs" >errors
sed -n 's/^    (\([0-9]*\), "\(.*\)$/refused \1: \2/p' "$root/tools/shuttles/src/refusals.rs" >refusals
grep -oE '"note: .*' "$root/tools/shuttles/src/solver_form.rs" | cut -c 2- >notes
grep -o 'stop ".*' "$root/examples/solve.sh" | sed 's/stop "/solve.sh: /' >solve
grep -o 'stop ".*' "$root/examples/least_cost.sh" | sed 's/stop "/least_cost.sh: /' >least
grep -oE '(stop |no_cargo=)"[^$].*' "$root/tools/shuttles/build.sh" | sed -E 's/^(stop |no_cargo=)"/shuttles\/build.sh: /' >build
grep -oE '(stop |no_compiler=)"[^$].*' "$root/tools/formula_program/build.sh" |
    sed -E 's/^(stop |no_compiler=)"/formula_program\/build.sh: /' >program
cut -f 2 pairs >seen
for source in errors refusals notes solve least build program; do
    [ -s "$source" ] || echo nothing >"$source"
    result "$(cut -c 1-40 "$source" | sort -u | grep -vxF -f seen)" "never said here, of $source"
done

# README's table has the tool's words, each refusal's once.
sed -n 's/^| \([0-9]*\) | \(.*\) | .* |$/refused \1: \2: /p' "$root/README.md" | grep -v '^refused 0:' >table
[ -s table ] || echo nothing >table
while read -r line; do
    number=${line#refused }
    number=${number%%:*}
    said=$("$shuttles" refusal "$number" 0) || said=''
    [[ $said == "$line"* ]] && fault='' || fault="$said"
    result "$fault" "README: $line"
done <table
result "$(diff <(cut -d : -f 1 refusals | sort) <(cut -d : -f 1 table | sort))" "README: the refusals of its table"

echo "words: $(wc -l <kinds) lines of $(cut -f 1 pairs | uniq | wc -l) kinds, $passed passed, $failed failed"
[ "$failed" -eq 0 ]
