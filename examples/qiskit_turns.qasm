OPENQASM 2.0;
include "qelib1.inc";
gate cphase q0,q1 { u1(pi/4) q0; cx q0,q1; u1(-pi/4) q1; cx q0,q1; u1(pi/4) q1; }
qreg q[2];
creg c[2];
h q[1];
cphase q[1],q[0];
h q[0];
swap q[0],q[1];
barrier q[0],q[1];
rz(3*pi/4) q[0];
rz(-pi/2) q[1];
