OPENQASM 3.0;
include "stdgates.inc";
qubit[4] query;
qubit answer;
x answer;
h query;
h answer;
// the function: the parity of the digits that the secret 1011 has
cx query[0], answer;
cx query[2], answer;
cx query[3], answer;
h query;
