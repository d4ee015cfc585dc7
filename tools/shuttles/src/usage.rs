//! What the tool says of itself.

pub const USAGE: &str = "\
shuttles instance DESCRIPTION                  instance bytes of a description, to standard output
shuttles exchange INSTANCE                     instance bytes with starts and goals exchanged, to standard output
shuttles floor INSTANCE                        how short a plan could be: no plan of a smaller makespan passes
shuttles size INSTANCE M                       how large the formula is, alone and with family H
shuttles input INSTANCE M                      what the formula program reads: the byte M, then the instance bytes
shuttles formula INSTANCE M                    the formula as DIMACS text, to standard output
shuttles pruned INSTANCE M                     the formula with family H as DIMACS text, to standard output
shuttles decode INSTANCE M < OUTPUT            the plan that a solver's output names, checked and shown
shuttles encode INSTANCE M PLAN...             the valuation of a plan, written as a solver writes it
shuttles check INSTANCE M PLAN...              checks a plan of makespan M
shuttles tally INSTANCE M PLANS...             checks many plans and counts them, each refusal under its own number
shuttles tally LIST                            the same for several instances and horizons, in one count
shuttles hold INSTANCE M H PLAN...             a plan of makespan M, its last row repeated until horizon H
shuttles reverse INSTANCE M PLAN...            a plan of makespan M driven back: its rows in reverse order
shuttles show INSTANCE PLAN...                 shows the rows of a plan and checks nothing
shuttles refusal NUMBER PLACE [INSTANCE [M]]   plain words for a refusal

INSTANCE is a file of instance bytes, or a description: a file that is text throughout is a description.
A PLAN is numbers, row by row: the vertex of each agent at time 0, then at time 1, and so on.
PLAN - reads the numbers from standard input. `decode --numbers`, `hold` and `reverse` write a plan in this form.
`hold` and `reverse` take a plan that passes, and the library checks what they write: a held plan at horizon H, a reversed
one for the instance that `exchange` writes, where every agent must have a destination.
PLANS is a file, a folder, whose files are read in the order of their names, or - for standard input. A file has one plan
or several, in this form, with an empty line or more between two. LIST is a text of lines `INSTANCE M PLANS`, whose paths
begin at the folder of LIST; # begins a comment. `tally --each` says first which plans were refused, a line each. A count
goes up to 65535 plans; what is more is refused with 34.
`tally` and each command that takes M also take --rule R, the movement rule, which is 1 where it is not given. Under rule
1 an agent enters only a vertex on which none stood as the step began. Under rule 2 it may follow another, into a vertex
that this one leaves in the same step, but no two agents exchange vertices. What is said of rule 2 names it. The formula
program keeps to rule 1.
`size`, `formula`, `decode`, `encode` and `refusal` also take --ceiling C, from 0 to 128: only plans that cost at most C
count. The formula has variables and clauses for it behind the others; family H has no ceiling. What is said names C.
The cost of a plan is the sum of its agents' times until rest: from then on the agent stays where it is. Waiting on the
way counts.
An agent without a destination, `agent START -` in a description, may end anywhere. A plan is shown with a line that
names such agents, where there are some, before its rows.
Family H forbids each agent, at each time, the vertices further from its start than the steps so far and those further
from its goal, where it has one, than the steps left. The formula with it has the same satisfying valuations, so the
same plans.
The words of a formula are signed 32-bit numbers: the literals of its clauses, and a 0 behind each clause.
OUTPUT is the text of the SAT competitions, as cadical and picosat print it. Minisat's result file is brought into that
form first, and so is what cryptominisat prints where a v line ends with a space or it gave up; a note on standard error
says so.

Exit status: 0 done; 1 refused by the library; 2 anything else that went wrong; 3 no plan of makespan M,
or with a ceiling none that costs at most C. `tally` ends with 0 where plans were refused and counted.
";
