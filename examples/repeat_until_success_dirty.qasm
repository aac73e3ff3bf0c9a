OPENQASM 3.0;
include "stdgates.inc";
// repeat_until_success without the `x` that makes the work qubit 0 again: the second try begins with 1 there, and its two
// outcomes have changed places.
qubit work;
qubit kept;
qubit data;
bit failed;
h work; t work; cx work, data; h work; cx work, data; t work; h work;
failed = measure work;
@invariant tried
while (failed) {
  h work; t work; cx work, data; h work; cx work, data; t work; h work;
  failed = measure work;
}
