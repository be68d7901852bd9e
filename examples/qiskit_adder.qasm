OPENQASM 2.0;
include "qelib1.inc";
gate maj q0,q1,q2 { cx q2,q1; cx q2,q0; ccx q0,q1,q2; }
gate uma q0,q1,q2 { ccx q0,q1,q2; cx q2,q0; cx q0,q1; }
qreg carry[1];
qreg b[1];
qreg a[1];
maj carry[0],b[0],a[0];
uma carry[0],b[0],a[0];
