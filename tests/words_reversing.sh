# shellcheck shell=bash
# Read by tests/words.sh: plans held and driven back. Every line here is worked out by hand.
# shellcheck disable=SC2154  # That sets the names used here.

# The path 0-1-2-3, agents from 0 to 1 and from 2 to 3; the ring 0-1-2, which turns under rule 2.
description there.txt 'grid 1 4' 'agent 0 1' 'agent 2 3'
description ring.txt 'vertices 3' 'edge 0 1' 'edge 0 2' 'edge 1 2' 'agent 0 1' 'agent 1 2' 'agent 2 0'
drive='0 2  0 3  1 3'

# Commands that lack a word, or do not take the rule.
for words in hold 'hold there.txt' 'hold there.txt 2' reverse 'reverse there.txt' exchange 'exchange there.txt 2' \
    'exchange --rule 1 there.txt' 'hold there.txt 2 3 --rule'; do
    # shellcheck disable=SC2086  # Words of the command.
    expect Usage 2 "$shuttles" $words
done

# Held: the last row stands again until the horizon, at the same cost; until the makespan nothing is added.
# shellcheck disable=SC2086  # Words of the plan, here and below.
{
    says $'0 2\n0 3\n1 3' "$shuttles" hold there.txt 2 2 $drive
    says $'0 2\n0 3\n1 3\n1 3' "$shuttles" hold there.txt 2 3 $drive
    says $'0 2\n0 3\n1 3\n1 3\n1 3' "$shuttles" hold there.txt 2 4 $drive
    says $'0 2\n0 3\n1 3\n1 3' fed "$drive" "$shuttles" hold there.txt 2 3 -
    "$shuttles" hold there.txt 2 32 $drive >held.txt
    result "$([ "$(wc -l <held.txt)" -eq 33 ] || wc -l <held.txt)" 'rows until 32'
    says 'plan passes: makespan 32, cost 3' from held.txt "$shuttles" check there.txt 32 -
    refuse 10 '"33" was given' "$shuttles" hold there.txt 2 33 $drive
    refuse 10 '"x" was given' "$shuttles" hold there.txt 2 x $drive
    refuse 10 '"02" was given' "$shuttles" hold there.txt 02 3 $drive
    refuse 31 '"3" was given' "$shuttles" hold --rule 3 there.txt 2 3 $drive
    for until in 0 1; do
        expect HeldShorter 2 "$shuttles" hold there.txt 2 "$until" $drive
        result "$(grep -q ": $until is below makespan 2\$" errors || cat errors)" "held until $until"
        result "$(head -c 100 said)" 'nothing on standard output: held until before its makespan'
    done
}
expect HeldShorter 2 "$shuttles" hold there.txt 32 31 - <held.txt
# Agents without a destination stay where they ended.
says $'0 1\n0 3\n1 3\n2 3\n2 3' "$shuttles" hold "$root/examples/idle.txt" 3 4  0 1  0 3  1 3  2 3
# A plan that does not pass is not held, and none is driven back.
for command in 'hold there.txt 1 2' 'reverse there.txt 1'; do
    # shellcheck disable=SC2086  # Words of the command.
    {
        refuse 13 '3 vertices given, 2 agents at times 0 to 1 need 4' "$shuttles" $command 0 2 1
        refuse 19 'agent 0 (line 2) at time 1: from vertex 0 to vertex 3' "$shuttles" $command 0 2  3 2
        refuse 22 'agent 1 (line 3) at time 1: at vertex 2, its goal is vertex 3' "$shuttles" $command 0 2  1 2
        expect PlanWord 2 "$shuttles" $command 0 x
    }
done

# Driven back: the rows in reverse order, for the instance with starts and goals exchanged; again, and all is as it was.
bytes_of() { od -An -v -tu1 "$1" | tr -s ' \n' ' '; }
"$shuttles" exchange there.txt >back.bin
result "$([ "$(bytes_of back.bin)" = ' 4 2 3 0 0 1 2 1 2 3 1 3 0 2 ' ] || bytes_of back.bin)" 'starts and goals exchanged'
"$shuttles" exchange back.bin >again.bin
result "$("$shuttles" instance there.txt | cmp - again.bin 2>&1)" 'exchanged again'
# shellcheck disable=SC2086  # Words of the plan.
{
    says $'1 3\n0 3\n0 2' "$shuttles" reverse there.txt 2 $drive
    "$shuttles" reverse there.txt 2 $drive >back.txt
    says 'plan passes: makespan 2, cost 3' from back.txt "$shuttles" check back.bin 2 -
    says $'0 2\n0 3\n1 3' from back.txt "$shuttles" reverse back.bin 2 -
    refuse 18 'agent 0 (line 2) at time 0: at vertex 1, its start is vertex 0' from back.txt "$shuttles" check there.txt 2 -
    refuse 10 '"33" was given' "$shuttles" reverse there.txt 33 $drive
    refuse 31 '"0" was given' "$shuttles" reverse there.txt 2 $drive --rule 0
}
says $'1\n0' "$shuttles" reverse pair.txt 1  0  1
# Waiting at the end does not count, waiting at the beginning does.
costs 2 2 there.txt 0 2  1 3  1 3
"$shuttles" reverse there.txt 2  0 2  1 3  1 3 >back.txt
says 'plan passes: makespan 2, cost 4' from back.txt "$shuttles" check back.bin 2 -
# Under rule 2 a ring turns back; under rule 1 it does not turn.
says $'1 2 0\n0 1 2' "$shuttles" reverse --rule 2 ring.txt 1  0 1 2  1 2 0
refuse 26 'agent 0 (line 5) at time 1: from vertex 0 to vertex 1, which agent 1 (line 6) leaves for vertex 2' \
    "$shuttles" reverse ring.txt 1  0 1 2  1 2 0
says $'0 1 2\n1 2 0\n1 2 0' "$shuttles" hold ring.txt 1 2 --rule 2  0 1 2  1 2 0

# An agent without a destination would have no start.
for command in "exchange $root/examples/idle.txt" "reverse $root/examples/idle.txt 3  0 1  0 3  1 3  2 3"; do
    # shellcheck disable=SC2086  # Words of the command.
    expect NoWayBack 2 "$shuttles" $command
    result "$(grep -q ': agent 1 (line 11): .*/idle.txt$' errors || cat errors)" "who has no way back: $command"
    result "$(head -c 100 said)" "nothing on standard output: $command"
done
"$shuttles" instance "$root/examples/idle.txt" >bytes.bin
expect NoWayBack 2 "$shuttles" exchange bytes.bin
result "$(grep -q ': agent 1: bytes.bin$' errors || cat errors)" 'who has no way back, by bytes'
expect NoFile 2 "$shuttles" exchange absent.txt
expect NoFile 2 "$shuttles" hold absent.txt 1 2 0 1
expect NoFile 2 "$shuttles" reverse absent.txt 1 0 1
expect Output 2 full "$shuttles" exchange there.txt
expect Output 2 full "$shuttles" reverse pair.txt 1 0 1
expect Input 2 of_folder "$shuttles" hold pair.txt 1 2 -
