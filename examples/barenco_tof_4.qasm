// NOT with 4 controls, by 8 Toffoli gates and 2 ancillas in any state: Barenco and others,
// "Elementary gates for quantum computation" (Physical Review A 52, 3457, 1995), lemma 7.2.
OPENQASM 2.0;
include "qelib1.inc";
qreg control[4];
qreg ancilla[2];
qreg target[1];

ccx ancilla[1],control[3],target[0];
ccx ancilla[0],control[2],ancilla[1];
ccx control[0],control[1],ancilla[0];
ccx ancilla[0],control[2],ancilla[1];
ccx ancilla[1],control[3],target[0];
ccx ancilla[0],control[2],ancilla[1];
ccx control[0],control[1],ancilla[0];
ccx ancilla[0],control[2],ancilla[1];
