OPENQASM 3.0;
include "stdgates.inc";
// gates that only turn: each basis state stays what it is
qubit[5] q;
t q;
cz q[0], q[4];
cp(3*pi/4) q[1], q[3];
rz(pi/2) q[2];
