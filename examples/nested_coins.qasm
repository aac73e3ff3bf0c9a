OPENQASM 3.0;
include "stdgates.inc";
// Two coins. The first is thrown until it shows 0, and each time it is thrown the second is thrown too, until that one shows 0. The
// inner loop's invariant has to carry what the outer one needs: what the first coin shows.
qubit[2] coin;
bit[2] c;
h coin[0];
c[0] = measure coin[0];
@invariant first
while (c[0]) {
  h coin[0];
  c[0] = measure coin[0];
  h coin[1];
  c[1] = measure coin[1];
  @invariant both
  while (c[1]) {
    h coin[1];
    c[1] = measure coin[1];
  }
}
