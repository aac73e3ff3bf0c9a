OPENQASM 3.0;
include "stdgates.inc";
qubit[16] q;      // the last carry, and from the highest place to the lowest: a, b and the sum
// place 0: the carry goes to q[12]
ccx q[13], q[14], q[12];
cx q[13], q[14];
ccx q[14], q[15], q[12];
cx q[13], q[14];
cx q[13], q[15];
cx q[14], q[15];
// place 1: the carry goes to q[9]
ccx q[10], q[11], q[9];
cx q[10], q[11];
ccx q[11], q[12], q[9];
cx q[10], q[11];
cx q[10], q[12];
cx q[11], q[12];
// place 2: the carry goes to q[6]
ccx q[7], q[8], q[6];
cx q[7], q[8];
ccx q[8], q[9], q[6];
cx q[7], q[8];
cx q[7], q[9];
cx q[8], q[9];
// place 3: the carry goes to q[3]
ccx q[4], q[5], q[3];
cx q[4], q[5];
ccx q[5], q[6], q[3];
cx q[4], q[5];
cx q[4], q[6];
cx q[5], q[6];
// place 4: the carry goes to q[0]
ccx q[1], q[2], q[0];
cx q[1], q[2];
ccx q[2], q[3], q[0];
cx q[1], q[2];
cx q[1], q[3];
cx q[2], q[3];
