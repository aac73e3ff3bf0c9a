OPENQASM 3.0;
include "stdgates.inc";
// The state of three qubits that are all 0 or all 1, with an assertion in the middle: two of them are a Bell pair first.
qubit[3] q;
h q[0];
cx q[0], q[1];
@assert pair
cx q[1], q[2];
