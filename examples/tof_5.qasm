// NOT with 5 controls, by 7 Toffoli gates and 3 ancillas that begin and end in 0.
OPENQASM 2.0;
include "qelib1.inc";
qreg control[5];
qreg ancilla[3];
qreg target[1];

ccx control[0],control[1],ancilla[0];
ccx ancilla[0],control[2],ancilla[1];
ccx ancilla[1],control[3],ancilla[2];
ccx ancilla[2],control[4],target[0];
ccx ancilla[1],control[3],ancilla[2];
ccx ancilla[0],control[2],ancilla[1];
ccx control[0],control[1],ancilla[0];
