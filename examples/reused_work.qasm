OPENQASM 3.0;
include "stdgates.inc";
// One work qubit for two parities: it is measured and reset after each, so the second one begins with a 0 again. The two
// bits say which qubit was flipped, and the data stay as they are.
qubit[3] data;
qubit work;
bit[2] s;
cx data[0], work;
cx data[1], work;
s[0] = measure work;
reset work;
cx data[1], work;
cx data[2], work;
s[1] = measure work;
reset work;
