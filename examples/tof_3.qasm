// NOT with 3 controls, by 3 Toffoli gates and 1 ancilla that begins and ends in 0.
OPENQASM 2.0;
include "qelib1.inc";
qreg control[3];
qreg ancilla[1];
qreg target[1];

ccx control[0],control[1],ancilla[0];
ccx ancilla[0],control[2],target[0];
ccx control[0],control[1],ancilla[0];
