OPENQASM 2.0;
include "qelib1.inc";
qreg q[1];
t q[0];
s q[0];
tdg q[0];
sdg q[0];
