OPENQASM 3.0;
include "stdgates.inc";
qubit[16] q;      // four blocks: what was coded, and the three qubits of its code
bit[8] s;
// block 0
cx q[1], q[2];
cx q[1], q[3];
s[0] = measure q[2];
s[1] = measure q[3];
if (s[0]) {
  if (s[1]) {
    x q[1];
  }
}
reset q[2];
reset q[3];
cx q[1], q[2];
cx q[1], q[3];
// block 1
cx q[5], q[6];
cx q[5], q[7];
s[2] = measure q[6];
s[3] = measure q[7];
if (s[2]) {
  if (s[3]) {
    x q[5];
  }
}
reset q[6];
reset q[7];
cx q[5], q[6];
cx q[5], q[7];
// block 2
cx q[9], q[10];
cx q[9], q[11];
s[4] = measure q[10];
s[5] = measure q[11];
if (s[4]) {
  if (s[5]) {
    x q[9];
  }
}
reset q[10];
reset q[11];
cx q[9], q[10];
cx q[9], q[11];
// block 3
cx q[13], q[14];
cx q[13], q[15];
s[6] = measure q[14];
s[7] = measure q[15];
if (s[6]) {
  if (s[7]) {
    x q[13];
  }
}
reset q[14];
reset q[15];
cx q[13], q[14];
cx q[13], q[15];
