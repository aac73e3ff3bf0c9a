OPENQASM 3.0;
include "stdgates.inc";
qubit first;
qubit[4] others;
h first;
cx first, others;     // one after the other, from others[0] to others[3]
