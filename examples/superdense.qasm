OPENQASM 3.0;
include "stdgates.inc";
// Superdense coding: two bits are sent by one qubit of a Bell pair. The bits to send are measured from a register, so each
// of the four messages is checked at once.
qubit[2] message;
qubit sender;
qubit receiver;
bit[2] sent;
bit[2] got;
sent = measure message;
h sender;
cx sender, receiver;
if (sent[1]) x sender;
if (sent[0]) z sender;
// now the sender's qubit is with the receiver
cx sender, receiver;
h sender;
got[0] = measure sender;
got[1] = measure receiver;
