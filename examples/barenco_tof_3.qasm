// NOT with 3 controls, by 4 Toffoli gates and 1 ancilla in any state: Barenco and others,
// "Elementary gates for quantum computation" (Physical Review A 52, 3457, 1995), lemma 7.2.
OPENQASM 2.0;
include "qelib1.inc";
qreg control[3];
qreg ancilla[1];
qreg target[1];

ccx ancilla[0],control[2],target[0];
ccx control[0],control[1],ancilla[0];
ccx ancilla[0],control[2],target[0];
ccx control[0],control[1],ancilla[0];
