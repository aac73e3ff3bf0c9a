OPENQASM 3.0;
include "stdgates.inc";
// Repeat until success: plays (I + i sqrt(2) X)/sqrt(3) on `data`, which no single list of these gates does. One try leaves, with
// the outcome 0, (I + i sqrt(2) X)/2 up to a phase, and with the outcome 1 half of what was there: a failure costs nothing but a
// try. The data is half of a pair whose other half nobody touches, so this is shown for whatever the data is.
qubit work;
qubit kept;
qubit data;
bit failed;
h work; t work; cx work, data; h work; cx work, data; t work; h work;
failed = measure work;
@invariant tried
while (failed) {
  x work;
  h work; t work; cx work, data; h work; cx work, data; t work; h work;
  failed = measure work;
}
