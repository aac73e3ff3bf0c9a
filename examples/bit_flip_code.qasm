OPENQASM 3.0;
include "stdgates.inc";
// The code of three qubits against one flip: the two parities of neighbours are measured, and say which qubit was flipped.
// The logical qubit is entangled with `kept`, which nobody touches: so what is restored is its state, whatever it was.
qubit kept;
qubit[3] data;
qubit[2] work;
bit[2] s;
cx data[0], work[0];
cx data[1], work[0];
cx data[1], work[1];
cx data[2], work[1];
s = measure work;
if (s[0]) {
  if (s[1]) x data[1];
  else x data[0];
} else {
  if (s[1]) x data[2];
}
