OPENQASM 3.0;
include "stdgates.inc";
// The code of three qubits against one flip, with two corrections exchanged: where the second parity alone is odd, the
// third qubit was flipped, and the first is flipped too. The logical qubit is entangled with `kept`.
qubit kept;
qubit[3] data;
qubit[2] work;
bit[2] s;
cx data[0], work[0];
cx data[1], work[0];
cx data[1], work[1];
cx data[2], work[1];
s = measure work;
if (s[0]) {
  if (s[1]) x data[1];
  else x data[2];
} else {
  if (s[1]) x data[0];
}
