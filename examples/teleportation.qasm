OPENQASM 3.0;
include "stdgates.inc";
// Teleportation: `message` goes to `there`, by a Bell pair and two bits. The message is half of a pair of its own, whose
// other half nobody touches: so the state of `there` at the end is the message's, whatever the message was.
qubit kept;
qubit message;
qubit here;
qubit there;
bit[2] c;
h here;
cx here, there;
cx message, here;
h message;
c[0] = measure message;
c[1] = measure here;
if (c[1]) { x there; }
if (c[0]) { z there; }
