OPENQASM 3.0;
include "stdgates.inc";
// A coin that is thrown until it shows 0: `h` throws it, and a measurement looks at it. The invariant says which state goes with
// which bit, so behind the loop, where the bit is 0, the coin shows 0.
qubit coin;
bit c;
h coin;
c = measure coin;
@invariant seen
while (c) {
  h coin;
  c = measure coin;
}
