OPENQASM 3.0;
include "stdgates.inc";
qubit control;
qubit target;
x target;              // a state that p only turns
h control;
// each turn of the target's state goes to the control; four eighths are a half
cp(pi/4) control, target;
cp(-7*pi/4) control, target;
cp(9*pi/4) control, target;
cp(π/4) control, target;
h control;
