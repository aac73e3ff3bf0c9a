OPENQASM 3.0;
include "stdgates.inc";
// the same gates, where sums of basis states are among the states too
qubit[5] q;
t q;
cz q[0], q[4];
cp(3*pi/4) q[1], q[3];
rz(pi/2) q[2];
