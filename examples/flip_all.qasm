OPENQASM 3.0;
include "stdgates.inc";
qubit[16] q;
x q;
