OPENQASM 3.0;
include "stdgates.inc";
qubit[15] q;      // secret, answer, secret, answer, ..; the last one is for the oracle
x q[14];
h q[14];
h q[1];
h q[3];
h q[5];
h q[7];
h q[9];
h q[11];
h q[13];
ccx q[0], q[1], q[14];      // the oracle: the product of secret and question
ccx q[2], q[3], q[14];
ccx q[4], q[5], q[14];
ccx q[6], q[7], q[14];
ccx q[8], q[9], q[14];
ccx q[10], q[11], q[14];
ccx q[12], q[13], q[14];
h q[1];
h q[3];
h q[5];
h q[7];
h q[9];
h q[11];
h q[13];
