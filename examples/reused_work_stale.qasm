OPENQASM 3.0;
include "stdgates.inc";
// One work qubit for two parities, which is not reset between them: where the first parity is odd, the second begins with
// a 1 and comes out wrong.
qubit[3] data;
qubit work;
bit[2] s;
cx data[0], work;
cx data[1], work;
s[0] = measure work;
cx data[1], work;
cx data[2], work;
s[1] = measure work;
reset work;
