OPENQASM 3.0;
include "stdgates.inc";
// Grover's search among four kets, of which two are marked: those of odd parity. Each turn looks at the mark only weakly: where it
// is there, the probe is turned to 0 and 1 by halves. A probe that shows 1 has found a mark; one that shows 0 has only made the
// marked part smaller, by sqrt(2), and the search goes on from there.
qubit[2] data;
qubit probe;
bit found;
h data;
cx data[0], data[1];
ch data[1], probe;
cx data[0], data[1];
found = measure probe;
@invariant searching
while (!found) {
  // the marked kets change their sign, and then all are mirrored at their mean
  z data;
  h data; x data; cz data[0], data[1]; x data; h data;
  // the weak look
  cx data[0], data[1];
  ch data[1], probe;
  cx data[0], data[1];
  found = measure probe;
}
