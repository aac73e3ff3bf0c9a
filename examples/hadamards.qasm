OPENQASM 3.0;
include "stdgates.inc";
// h on each qubit takes a basis state to a product of sums and differences
qubit[4] q;
h q;
