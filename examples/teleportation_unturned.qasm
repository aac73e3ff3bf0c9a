OPENQASM 3.0;
include "stdgates.inc";
// Teleportation without its last correction: where the message was measured as 1, the sign of the state that arrives is
// wrong. The message is half of a pair, whose other half nobody touches, so the sign shows.
qubit kept;
qubit message;
qubit here;
qubit there;
bit[2] c;
h here;
cx here, there;
cx message, here;
h message;
c[0] = measure message;
c[1] = measure here;
if (c[1]) { x there; }
