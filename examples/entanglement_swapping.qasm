OPENQASM 3.0;
include "stdgates.inc";
// Entanglement swapping: a and b are a Bell pair, and c and d are another. A Bell measurement of b and c, and a correction
// of d by its two bits, make a Bell pair of a and d, which never met.
qubit a;
qubit b;
qubit c;
qubit d;
bit[2] m;
h a;
cx a, b;
h c;
cx c, d;
cx b, c;
h b;
m[0] = measure b;
m[1] = measure c;
if (m[1]) x d;
if (m[0]) z d;
