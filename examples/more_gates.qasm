// Gates that Qiskit and others write and the header hasn't, by Clifford gates and T. To use one, copy it into a text, behind
// its include, with those that it is made of (rcccx with rc3x, c3x with c3z, cu with cu3, rxxyyzz and fsim with rxx and ryy).
// `tests/gates` compares each with its matrix, as Qiskit's library of standard gates and the headers of the other tools
// have it. `examples/more_gates.qasm` and `python/zxopt/library.qasm` are copies of each other.
OPENQASM 2.0;
include "qelib1.inc";

// -- without angles

gate u0(gamma) q { U(0,0,0) q; }
gate cs a,b { cu1(pi/2) a,b; }
gate csdg a,b { cu1(-pi/2) a,b; }
gate csx a,b { h b; cu1(pi/2) a,b; h b; }
gate csxdg a,b { h b; cu1(-pi/2) a,b; h b; }
gate dcx a,b { cx a,b; cx b,a; }
gate iswap a,b { s a; s b; h a; cx a,b; cx b,a; h b; }
gate ecr a,b { h b; cx a,b; s b; cx a,b; h b; x a; }
gate rccx a,b,c { h c; t c; cx b,c; tdg c; cx a,c; t c; cx b,c; tdg c; h c; }
gate rc3x a,b,c,d {
    h d; t d; cx c,d; tdg d; h d;
    cx a,d; t d; cx b,d; tdg d; cx a,d; t d; cx b,d; tdg d;
    h d; t d; cx c,d; tdg d; h d;
}
gate rcccx a,b,c,d { rc3x a,b,c,d; }
// by roots of T: without an ancilla, no circuit with whole numbers of sixteenth turns has more controls
gate c3z a,b,c,d {
    u1(pi/8) a; u1(pi/8) b; u1(pi/8) c; u1(pi/8) d;
    cx a,b; u1(-pi/8) b; cx a,b;
    cx b,c; u1(-pi/8) c; cx a,c; u1(pi/8) c; cx b,c; u1(-pi/8) c; cx a,c;
    cx c,d; u1(-pi/8) d; cx b,d; u1(pi/8) d; cx c,d; u1(-pi/8) d; cx a,d; u1(pi/8) d;
    cx c,d; u1(-pi/8) d; cx b,d; u1(pi/8) d; cx c,d; u1(-pi/8) d; cx a,d;
}
gate c3x a,b,c,d { h d; c3z a,b,c,d; h d; }
gate zz a,b { rzz(pi/2) a,b; }

// -- with angles: any whole number of sixteenth turns (pi/8)

gate phase(lambda) q { u1(lambda) q; }
gate rzq(n,d) q { u1(n*pi/d) q; }
gate r(theta,phi) q { u3(theta,phi-pi/2,pi/2-phi) q; }
gate u1q(theta,phi) q { u3(theta,phi-pi/2,pi/2-phi) q; }
gate rxx(theta) a,b { h a; h b; rzz(theta) a,b; h a; h b; }
gate ryy(theta) a,b { rx(pi/2) a; rx(pi/2) b; rzz(theta) a,b; rx(-pi/2) a; rx(-pi/2) b; }
gate rzx(theta) a,b { h b; rzz(theta) a,b; h b; }
gate rxxyyzz(alpha,beta,gamma) a,b { rxx(alpha) a,b; ryy(beta) a,b; rzz(gamma) a,b; }

// -- with angles whose halves are taken: theta, phi of fsim, lambda of cphase, and phi+lambda have to be even numbers of
// sixteenth turns

gate cphase(lambda) a,b { cu1(lambda) a,b; }
gate fsim(theta,phi) a,b { rxx(theta) a,b; ryy(theta) a,b; cu1(-phi) a,b; }

// as in Qiskit's header; that of the language's first edition leaves out the first statement, which is another map
gate cu3(theta,phi,lambda) c,t {
    u1((lambda+phi)/2) c;
    u1((lambda-phi)/2) t; cx c,t; u3(-theta/2,0,-(phi+lambda)/2) t; cx c,t; u3(theta/2,phi,0) t;
}
gate cu(theta,phi,lambda,gamma) c,t { u1(gamma) c; cu3(theta,phi,lambda) c,t; }
