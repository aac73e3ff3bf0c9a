OPENQASM 3.0;
include "stdgates.inc";
qubit[4] query;
qubit answer;
x answer;
h query;
h answer;
/* the secret is 1011, but its last digit is forgotten */
cx query[0], answer;
cx query[2], answer;
h query;
