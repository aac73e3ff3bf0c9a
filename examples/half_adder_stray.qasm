OPENQASM 3.0;
include "stdgates.inc";
qubit[2] kept;
qubit[2] a;
qubit carry;
x a[0];          // a stray gate: from all basis states to all basis states this would pass
ccx a[0], a[1], carry;
cx a[0], a[1];
