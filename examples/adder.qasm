// A ripple-carry adder of two bits (Cuccaro, Draper, Kutin, Moulton, "A new quantum ripple-carry addition circuit",
// quant-ph/0410184): b becomes a + b, and high the carry.
OPENQASM 2.0;
include "qelib1.inc";

gate majority a,b,c { cx c,b; cx c,a; ccx a,b,c; }
gate unmajority a,b,c { ccx a,b,c; cx c,a; cx a,b; }

qreg carry[1];
qreg a[2];
qreg b[2];
qreg high[1];

// a = 1, b = 3
x a[0];
x b;

majority carry[0],b[0],a[0];
majority a[0],b[1],a[1];
cx a[1],high[0];
unmajority a[0],b[1],a[1];
unmajority carry[0],b[0],a[0];
