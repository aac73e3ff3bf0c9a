OPENQASM 3.0;
include "stdgates.inc";
// from any basis state of two pairs, each pair becomes a Bell state
qubit[2] a;
qubit[2] b;
bit done;   // 0 from the start to the end, since nothing is measured
h a[0];
cx a[0], a[1];
h b[0];
cx b[0], b[1];
