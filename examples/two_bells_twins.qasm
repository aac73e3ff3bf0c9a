OPENQASM 3.0;
include "stdgates.inc";
// the same program, of which it is claimed that both pairs are of one kind
qubit[2] a;
qubit[2] b;
h a[0];
cx a[0], a[1];
h b[0];
cx b[0], b[1];
