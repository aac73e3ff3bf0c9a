OPENQASM 3.0;
include "stdgates.inc";
// Iterative phase estimation: the phase of p(3*pi/4) is 3/8 of a turn, 0.011 in binary digits. Each round measures one digit by
// the same probe, the last digit first, and turns back by those that are known. An assertion between the rounds says what is known.
qubit probe;
qubit state;
bit[3] d;
x state;
// the last digit: four times the phase is a half turn, or none
h probe;
cp(3*pi) probe, state;
h probe;
d[2] = measure probe;
reset probe;
@assert last
h probe;
cp(3*pi/2) probe, state;
if (d[2]) p(-pi/2) probe;
h probe;
d[1] = measure probe;
reset probe;
@assert last_two
h probe;
cp(3*pi/4) probe, state;
if (d[2]) p(-pi/4) probe;
if (d[1]) p(-pi/2) probe;
h probe;
d[0] = measure probe;
