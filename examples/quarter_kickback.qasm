OPENQASM 3.0;
include "stdgates.inc";
qubit control;
qubit target;
bit[2] unused;
x target;
h control;
cp(pi/2) control, target;
h control;
