// NOT with 10 controls, by 17 Toffoli gates and 8 ancillas that begin and end in 0.
OPENQASM 2.0;
include "qelib1.inc";
qreg control[10];
qreg ancilla[8];
qreg target[1];

ccx control[0],control[1],ancilla[0];
ccx ancilla[0],control[2],ancilla[1];
ccx ancilla[1],control[3],ancilla[2];
ccx ancilla[2],control[4],ancilla[3];
ccx ancilla[3],control[5],ancilla[4];
ccx ancilla[4],control[6],ancilla[5];
ccx ancilla[5],control[7],ancilla[6];
ccx ancilla[6],control[8],ancilla[7];
ccx ancilla[7],control[9],target[0];
ccx ancilla[6],control[8],ancilla[7];
ccx ancilla[5],control[7],ancilla[6];
ccx ancilla[4],control[6],ancilla[5];
ccx ancilla[3],control[5],ancilla[4];
ccx ancilla[2],control[4],ancilla[3];
ccx ancilla[1],control[3],ancilla[2];
ccx ancilla[0],control[2],ancilla[1];
ccx control[0],control[1],ancilla[0];
