OPENQASM 3.0;
include "stdgates.inc";
// The coin of until_zero, with an invariant that is too weak: it says that the coin shows 0 or 1, and nothing of the bit. It
// holds at each turn, but behind the loop it allows a coin that shows 1.
qubit coin;
bit c;
h coin;
c = measure coin;
@invariant seen
while (c) {
  h coin;
  c = measure coin;
}
