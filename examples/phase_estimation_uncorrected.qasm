OPENQASM 3.0;
include "stdgates.inc";
// phase_estimation without one correction in the last round, which then shows 0 or 1.
qubit probe;
qubit state;
bit[3] d;
x state;
// the last digit: four times the phase is a half turn, or none
h probe;
cp(3*pi) probe, state;
h probe;
d[2] = measure probe;
reset probe;
@assert last
h probe;
cp(3*pi/2) probe, state;
if (d[2]) p(-pi/2) probe;
h probe;
d[1] = measure probe;
reset probe;
@assert last_two
h probe;
cp(3*pi/4) probe, state;
if (d[2]) p(-pi/4) probe;
h probe;
d[0] = measure probe;
