# shellcheck shell=bash
# Read by tests/words.sh: many plans counted. Every number and every line here is worked out by hand.
# shellcheck disable=SC2154  # That sets the names used here.

# tallies STATUS TEXT COMMAND...: just this text on standard output, nothing on standard error, and this status. Each line
# about a number begins as every other line about it.
tallies() {
    local got=0 fault='' line
    "${@:3}" >said 2>errors || got=$?
    [ "$got" -eq "$1" ] || fault="status $got, not $1"
    [ ! -s errors ] || fault="complained: $(cat errors)"
    printf '%s\n' "$2" | cmp -s - said || fault="said otherwise: $(head -c 2000 said)"
    grep '^refused ' said >lines
    while IFS= read -r line; do
        printf 'refusal %s\t%s\n' "$(cut -d ' ' -f 2 <<<"${line%%:*}")" "${line:0:40}" >>kinds
    done <lines
    result "$fault" "${*:3}"
}
# fails KIND END COMMAND...: an error of this kind, whose line ends so, and nothing on standard output.
fails() {
    expect "$1" 2 "${@:3}"
    result "$(head -c 100 said)" "nothing on standard output: ${*:3}"
    result "$([[ $(cat errors) == *"$2" ]] || cat errors)" "$2"
}
# repeated COUNT PLAN: so many plans, with / between the rows.
repeated() {
    local i
    for ((i = 0; i < $1; i++)); do printf '%s\n\n' "${2// \/ /$'\n'}"; done
}

# Words of the numbers that the plan check gives.
declare -A begins=(
    [1]='the instance is cut short before the end of its sizes'
    [2]='the number of vertices must be from 1 to 64'
    [3]='the number of agents must be from 1 to 16 and at most that of vertices'
    [4]='there are more edges than pairs of vertices'
    [5]='the instance is longer or shorter than its sizes say'
    [6]='an edge must join two vertices of the map, the lower one first'
    [7]='the edges are out of order, or one is there twice'
    [8]="an agent's start is not on the map, or is an earlier agent's too"
    [9]="an agent's goal is not on the map, or is an earlier agent's too"
    [10]='the horizon must be a whole number from 0 to 32'
    [13]='the plan must have one vertex for each agent at each time'
    [17]='the plan names a vertex that is not on the map'
    [18]='the plan does not begin with every agent at its start'
    [19]='an agent jumps: no edge joins the vertices of its step'
    [20]='an agent drives into another that stays where it is'
    [21]='two agents are at the same vertex at the end of a step'
    [22]='the plan does not end with every agent at its goal'
    [25]='two agents meet head-on: they exchange vertices in one step'
    [26]='an agent closes up: it enters a vertex that another leaves in the same step'
    [31]='the movement rule must be 1 or 2'
)
# counts PASSED COST [NUMBER:COUNT]...: the lines of a count; COST is empty where no plan passed.
counts() {
    local refusal
    echo "plans passed$under: $1"
    [ -z "$2" ] || echo "cost of those passed: $2"
    for refusal in "${@:3}"; do
        echo "refused ${refusal%:*}: ${begins[${refusal%:*}]}: ${refusal#*:} plans"
    done | sed 's/: 1 plans$/: 1 plan/'
}
under=''

# The three that were once one line, and two that need a longer plan.
{ repeated 1 '0 1 / 1 1 / 1 2'; repeated 2 '0 1 / 1 0 / 1 2'; repeated 3 '0 1 / 1 2 / 1 2'; repeated 1 '0 1 / 0 2 / 0 2'; } >folded.txt
tallies 0 'plans passed: 0
refused 20: an agent drives into another that stays where it is: 1 plan
refused 22: the plan does not end with every agent at its goal: 1 plan
refused 25: two agents meet head-on: they exchange vertices in one step: 2 plans
refused 26: an agent closes up: it enters a vertex that another leaves in the same step: 3 plans' "$shuttles" tally path.txt 2 folded.txt

# Every number that a plan of the path gets at horizon 2, each so often as no other. Under rule 2 who drives into one that
# stays shares its vertex, and who closes up passes, at cost 2.
repeated 2 '0 1 / 0 2 / 1 2' >every.txt
i=3
for driven in '0 1 / 0 2' '0 1 / 0 3 / 1 2' '0 2 / 0 2 / 1 2' '0 1 / 2 1 / 1 2' '0 1 / 1 1 / 1 2' '0 1 / 0 2 / 1 1' '0 1 / 0 2 / 0 2' \
    '0 1 / 1 0 / 1 2' '0 1 / 1 2 / 1 2'; do
    repeated "$i" "$driven" >>every.txt
    i=$((i + 1))
done
tallies 0 "$(counts 2 'least 3, greatest 3, mean 3.00' 13:3 17:4 18:5 19:6 20:7 21:8 22:9 25:10 26:11)" "$shuttles" tally path.txt 2 every.txt
tallies 0 "$(counts 2 'least 3, greatest 3, mean 3.00' 13:3 17:4 18:5 19:6 20:7 21:8 22:9 25:10 26:11)" \
    from every.txt "$shuttles" tally --rule 1 path.txt 2 -
under=' under rule 2'
for words in '--rule 2 tally path.txt 2 every.txt' 'tally path.txt --rule 2 2 every.txt' 'tally path.txt 2 every.txt --rule 2'; do
    # shellcheck disable=SC2086  # Words of the command.
    tallies 0 "$(counts 13 'least 2, greatest 3, mean 2.15' 13:3 17:4 18:5 19:6 21:15 22:9 25:10)" "$shuttles" $words
done
tallies 0 "$(counts 0 '' 13:1)" fed '0\n' "$shuttles" tally pair.txt 1 - --rule 2
under=''
for rule in 0 3 x ''; do
    tallies 0 "$(counts 0 '' 31:65)" "$shuttles" tally path.txt 2 every.txt --rule "$rule"
    tallies 0 "$(counts 0 '' 10:65)" "$shuttles" tally path.txt 33 every.txt --rule "$rule"
done
tallies 0 "$(counts 0 '' 10:65)" "$shuttles" tally path.txt 02 every.txt

# Those of the instance, by a list: number q so often as q says, then plans of the pair that pass.
for ((i = 1; i <= 11; i++)); do repeated "$i" '0 / 1' >"times$i.txt"; done
# broken NUMBER OCTAL...: instance bytes that get this number.
broken() { bytes "${@:2}" && mv bytes.bin "broken$1.bin"; }
broken 1 2 1
broken 2 101 1 0 0
broken 3 2 3 0 0
broken 4 3 1 0 10
broken 5 2 1 1 0 0 1 0
broken 6 2 1 1 0 1 0 0 1
broken 7 3 1 2 0 1 0 2 1 0 1
broken 8 2 2 0 0 0 0 0 1
broken 9 2 2 0 0 0 1 1 1
{
    for ((i = 1; i <= 9; i++)); do echo "broken$i.bin 1 times$i.txt"; done
    printf '%s\n' 'pair.txt 33 times10.txt' 'pair.txt 1 times11.txt'
} >every.list
first=(1:1 2:2 3:3 4:4 5:5 6:6 7:7 8:8 9:9 10:10)
tallies 0 "$(counts 11 'least 1, greatest 1, mean 1.00' "${first[@]}")" "$shuttles" tally every.list
tallies 0 "$(counts 0 '' "${first[@]}" 31:11)" "$shuttles" tally --rule 3 every.list
under=' under rule 2'
tallies 0 "$(counts 11 'least 1, greatest 1, mean 1.00' "${first[@]}")" "$shuttles" tally every.list --rule 2
under=''

# Costs: of the pair at horizon 3 they are 1, 2 and 3; of an agent that stays 0. The first sets both, whichever it is.
one='0 / 1 / 1 / 1' two='0 / 0 / 1 / 1' three='0 / 0 / 0 / 1'
# mean COST PLAN...: of the pair at horizon 3.
mean() {
    for driven in "${@:2}"; do repeated 1 "$driven"; done >costs.txt
    tallies 0 "$(counts $(($# - 1)) "$1")" "$shuttles" tally pair.txt 3 costs.txt
}
mean 'least 3, greatest 3, mean 3.00' "$three"
mean 'least 1, greatest 3, mean 2.00' "$three" "$one"
mean 'least 1, greatest 3, mean 2.00' "$one" "$three"
mean 'least 2, greatest 3, mean 2.33' "$two" "$three" "$two"
mean 'least 2, greatest 3, mean 2.67' "$three" "$two" "$three"
mean 'least 1, greatest 2, mean 1.13' "$one" "$one" "$two" "$one" "$one" "$one" "$one" "$one"
mean 'least 1, greatest 2, mean 1.88' "$two" "$two" "$two" "$two" "$one" "$two" "$two" "$two"
# listed_mean COST ZEROS ONES: so many plans of cost 0, then of cost 1.
listed_mean() {
    repeated "$2" 0 >zeros.txt
    repeated "$3" '0 / 1' >ones.txt
    printf '%s\n' 'home.txt 0 zeros.txt' 'pair.txt 1 ones.txt' >costs.list
    tallies 0 "$(counts $(($2 + $3)) "$1")" "$shuttles" tally costs.list
}
listed_mean 'least 0, greatest 1, mean 0.13' 7 1
listed_mean 'least 0, greatest 1, mean 1.00' 1 199
listed_mean 'least 0, greatest 1, mean 0.99' 1 99
listed_mean 'least 0, greatest 1, mean 0.01' 199 1
listed_mean 'least 0, greatest 1, mean 0.00' 200 1
tallies 0 "$(counts 200 'least 0, greatest 0, mean 0.00')" "$shuttles" tally home.txt 0 zeros.txt

# Folders, in the order of the names; hidden files and folders are passed over. The names and the order show with --each.
mkdir -p month/.hidden month/deep
printf '0\n0\n' | tee month/9.txt month/B >month/10.txt
printf '\n\n1\n1\n\n\t \n\n0\n1\n\n0\n5\n' >month/a
echo nothing >month/.notes
mv month/deep deep
short="refused 22: ${begins[22]}: agent 0 (line 3) at time 1: at vertex 0, its goal is vertex 1 (place 1)"
month="$short: month/10.txt
$short: month/9.txt
$short: month/B
refused 18: ${begins[18]}: agent 0 (line 3) at time 0: at vertex 1, its start is vertex 0 (place 0): month/a, plan 1
refused 17: ${begins[17]}: agent 0 (line 3) at time 1: at vertex 5, the map has only vertices 0 to 1 (place 1): month/a, plan 3"
month_counts=$(counts 1 'least 1, greatest 1, mean 1.00' 17:1 18:1 22:3)
tallies 0 "$month_counts" "$shuttles" tally pair.txt 1 month
tallies 0 "$month"$'\n'"$month_counts" "$shuttles" tally --each pair.txt 1 month
tallies 0 "$month"$'\n'"$month_counts" "$shuttles" tally --each pair.txt 1 month/
# Several words, each in its turn, and standard input among them; from bytes no lines of a description are named.
"$shuttles" instance pair.txt >bytes.bin
tallies 0 "${short/ (line 3)/}: month/B
${short/ (line 3)/}: standard input, plan 2
${short/ (line 3)/}: month/9.txt
$(counts 1 'least 1, greatest 1, mean 1.00' 22:3)" fed '0\n1\n\n0\n0' "$shuttles" tally --each bytes.bin 1 month/B - month/9.txt
tallies 0 "$short: standard input"$'\n'"$(counts 0 '' 22:1)" fed '0 0\r\n' "$shuttles" tally --each pair.txt 1 -
tallies 0 "$(counts 0 '' 13:1)" fed '0 1\n0 1' "$shuttles" tally pair.txt 1 -
# A plan is said as `check` says it.
for driven in '0 1 0' '0 1 0 2 0 2' '0 1 1 0 1 2' '0 1 1 2 1 2' '0 1 2 1 1 2' '0 1 0 2 1 1' '0 7 0 2 1 1'; do
    for rule in 1 2 3; do
        # shellcheck disable=SC2086  # Words of the plan.
        line=$("$shuttles" check --rule "$rule" path.txt 2 $driven) && continue
        result "$(fed "$driven" "$shuttles" tally --each --rule "$rule" path.txt 2 - | head -n 1 | diff - <(echo "$line: standard input"))" "as check: $driven"
    done
done

# Lists: paths begin at the list's folder, wherever the tool is; a line may be a comment, and end as on other systems.
mkdir lists
printf '# month\r\n\r\n../pair.txt\t1  ../month # all\r\n  ../pair.txt 3 plan\n#../absent 1 plan\n../path.txt 2 ../folded.txt' >lists/month.list
repeated 1 "$three" >lists/plan
list_counts=$(counts 2 'least 1, greatest 3, mean 2.00' 17:1 18:1 20:1 22:4 25:2 26:3)
tallies 0 "$list_counts" "$shuttles" tally lists/month.list
tallies 0 "$list_counts" "$shuttles" tally "$folder/lists/month.list"
tallies 0 "$list_counts" env -C lists "$shuttles" tally month.list
echo "$folder/pair.txt 1 -" >lists/input.list
tallies 0 "$short: standard input"$'\n'"$(counts 0 '' 22:1)" fed '0 0' "$shuttles" tally --each lists/input.list
echo '../pair.txt 1 ../month/9.txt' >lists/one.list
tallies 0 "${short}: lists/../month/9.txt"$'\n'"$(counts 0 '' 22:1)" "$shuttles" tally --each lists/one.list

# A record counts 65,535 plans, whatever they get; the rest is refused, and not told plan by plan.
full='refused 34: the record of counted plans takes no more: 65535 plans are counted already, begin an empty record;'
yes $'0\n1\n' | head -n $((3 * 65536)) >many.txt
head -n $((3 * 65535)) many.txt >most.txt
most=$(counts 65535 'least 1, greatest 1, mean 1.00')
tallies 0 "$most" "$shuttles" tally pair.txt 1 most.txt
tallies 1 "$most"$'\n'"$full 1 plan was not counted (place 65535)" "$shuttles" tally pair.txt 1 many.txt
tallies 1 "$most"$'\n'"$full 65542 plans were not counted (place 65535)" "$shuttles" tally --each pair.txt 1 most.txt month many.txt
head -n $((3 * 65532)) many.txt >most.txt
most="$short: month/10.txt
$short: month/9.txt
$short: month/B
$(counts 65532 'least 1, greatest 1, mean 1.00' 22:3)"
tallies 1 "$most"$'\n'"$full 3 plans were not counted (place 65535)" "$shuttles" tally --each pair.txt 1 most.txt month
printf '%s\n' 'pair.txt 1 most.txt' 'pair.txt 33 month' 'broken1.bin 1 times1.txt' >most.list
tallies 1 "$(counts 65532 'least 1, greatest 1, mean 1.00' 10:3)
$full 4 plans were not counted (place 65535)" "$shuttles" tally most.list
expect 'refusal 34' 0 "$shuttles" refusal 34 65535
told '65535 plans are counted already, or its sum is too high for them; begin an empty record'
expect 'refusal 34' 0 "$shuttles" refusal 34 65535 path.txt 2 --rule 2
for place in 0 65534 65536 18446744073709551615; do
    expect 'refusal 34' 0 "$shuttles" refusal 34 "$place"
    told 'the place is always 65535'
done

# Commands that are none, and a ceiling.
for words in tally 'tally --each' 'tally path.txt 2' 'tally --each path.txt 2' 'tally every.list --rule' 'tally every.list --each' \
    'tally --rule 2' 'tally every.list --rule 2 --rule 2'; do
    # shellcheck disable=SC2086  # Words of the command.
    expect Usage 2 "$shuttles" $words
done
for words in 'tally every.list' 'tally --each path.txt 2 every.txt' 'tally absent' tally; do
    # shellcheck disable=SC2086  # Words of the command.
    bounded_not $words --ceiling 3
done

# Errors name the file, and where there is one the plan and the line; what was read before is not told.
fails NoFile ': absent.txt' "$shuttles" tally absent.txt 2 every.txt
fails NoFile ': absent' "$shuttles" tally path.txt 2 every.txt absent
fails NoFile ': absent.list' "$shuttles" tally absent.list
fails NoFile ': --each' "$shuttles" tally path.txt 2 every.txt --each
fails Folder ': folder' "$shuttles" tally folder 2 every.txt
fails Folder ': folder' "$shuttles" tally folder
fails Keyword ': d1.txt' "$shuttles" tally d1.txt 2 every.txt
fails NoPlans ': folder' "$shuttles" tally path.txt 2 every.txt folder
mkdir -p hidden nested/inner
echo 0 | tee hidden/.plan >nested/plan
fails NoPlans ': hidden' "$shuttles" tally path.txt 2 hidden
fails Subfolder ': nested/inner' "$shuttles" tally path.txt 2 every.txt nested
fails Subfolder ': nested/inner' "$shuttles" tally --each path.txt 2 nested/
ln -s absent deep/link
fails NoFile ': deep/link' "$shuttles" tally path.txt 2 deep
printf '\n \t\r\n' >blank.txt
: >empty.txt
for file in blank.txt empty.txt; do
    fails NoPlans ": $file" "$shuttles" tally path.txt 2 every.txt "$file"
    fails NoPlans ": $file" "$shuttles" tally "$file"
    fails NoPlans ': standard input' from "$file" "$shuttles" tally path.txt 2 -
done
fails NoPlans ': standard input' fed '0 1' "$shuttles" tally path.txt 2 - -
# wrong END TEXT: a file of plans, and the same on standard input.
wrong() {
    printf '%b' "$2" >wrong.txt
    fails PlanWord ": $1: wrong.txt" "$shuttles" tally path.txt 2 every.txt wrong.txt
    fails PlanWord ": $1: standard input" from wrong.txt "$shuttles" tally --each path.txt 2 -
}
wrong 'plan 1, line 1: "x"' 'x'
wrong 'plan 2, line 6: "256"' '0 1\n0 2\n1 2\n\n\n0 256\n'
wrong 'plan 3, line 5: "-1"' '0\n\n1\n\n-1 x'
wrong 'plan 1, line 2: "#"' '0 1\n# the next day\n'
wrong 'plan 1, line 1: "t=0:"' 't=0: agent0@0 agent1@1\n'
wrong 'plan 1, line 1: "\xff"' '0 \0377'
wrong 'plan 1, line 1: "1\r\r0"' '0 1\r\r0 1\r'
for mark in '\0357\0273\0277' '\0377\0376'; do
    printf '%b0 1' "$mark" >marked.txt
    fails ByteOrderMark ': marked.txt' "$shuttles" tally path.txt 2 every.txt marked.txt
    fails ByteOrderMark ': standard input' from marked.txt "$shuttles" tally path.txt 2 -
    fails ByteOrderMark ': marked.txt' "$shuttles" tally marked.txt
done
# bad KIND END TEXT: a list.
bad() {
    printf '%b' "$3" >bad.list
    fails "$1" "$2" "$shuttles" tally bad.list
}
form='given, the form is "INSTANCE M PLANS": bad.list'
bad ListLine ": line 1: 1 word $form" 'path.txt\n'
bad ListLine ": line 3: 2 words $form" 'path.txt 2 every.txt\n\npath.txt 2 # every.txt\n'
bad ListLine ": line 2: 4 words $form" '# month\npath.txt 2 every.txt folded.txt\n'
bad ListLine ': line 1: a carriage return stands inside it, and only a newline ends a line: bad.list' '# Mac\rpath.txt 2 every.txt\r'
bad ListText ': bad.list' 'path.txt 2 Fl\0344che\n'
bad ListText ': bad.list' 'path.txt 2 every.txt\n\0000'
bad NoPlans ': bad.list' '# path.txt 2 every.txt\n'
bad NoFile ': absent.txt' 'path.txt 2 every.txt\nabsent.txt 2 every.txt'
bad NoFile ': absent' 'path.txt 2 every.txt\npath.txt 2 absent'
bad PlanWord ': plan 1, line 1: "path.txt": bad.list' 'path.txt 2 bad.list'
bad Subfolder ': nested/inner' 'path.txt 2 nested'
expect Input 2 of_folder "$shuttles" tally path.txt 2 -
expect Output 2 full "$shuttles" tally path.txt 2 every.txt
expect Output 2 gone "$shuttles" tally --each path.txt 2 every.txt

# The examples: what they come to, and examples/README.md has every line of it.
plans=$root/examples/plans
path_counts=(13:1 18:1 21:1 22:1 25:1 26:2)
tallies 0 "$(counts 2 'least 3, greatest 3, mean 3.00' "${path_counts[@]}")" "$shuttles" tally "$root/examples/path.txt" 2 "$plans/path"
tallies 0 "$(counts 5 'least 1, greatest 3, mean 2.40' "${path_counts[@]/22:1/22:2}")" "$shuttles" tally "$plans/month.list"
under=' under rule 2'
tallies 0 "$(counts 4 'least 2, greatest 3, mean 2.50' "${path_counts[@]:0:5}")" "$shuttles" tally --rule 2 "$root/examples/path.txt" 2 "$plans/path"
under=''
for words in 'examples/path.txt 2 examples/plans/path' '--each examples/path.txt 2 examples/plans/path' \
    '--rule 2 examples/path.txt 2 examples/plans/path' examples/plans/month.list; do
    # shellcheck disable=SC2086  # Words of the command.
    env -C "$root" "$shuttles" tally $words >said
    result "$(grep -vxF -f "$root/examples/README.md" said)" "in examples/README.md: tally $words"
done
