OPENQASM 3.0;
include "stdgates.inc";
qubit first;
qubit[15] others;
h first;
cx first, others;
