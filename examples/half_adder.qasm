OPENQASM 3.0;
include "stdgates.inc";
qubit[2] kept;   // the input, from the start to the end
qubit[2] a;      // the input: two bits, of which the second becomes their sum
qubit carry;     // 0 at the start
ccx a[0], a[1], carry;
cx a[0], a[1];
