OPENQASM 3.0;
include "stdgates.inc";
// three controlled nots exchange two qubits; the one between them stays
qubit[3] q;
cx q[0], q[2];
cx q[2], q[0];
cx q[0], q[2];
