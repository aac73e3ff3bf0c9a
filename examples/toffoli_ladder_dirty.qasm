OPENQASM 3.0;
include "stdgates.inc";
qubit[4] c;      // the controls
qubit[2] work;   // 0 before, and left as they come
qubit target;
ccx c[0], c[1], work[0];
ccx c[2], work[0], work[1];
ccx c[3], work[1], target;
