OPENQASM 2.0;
include "qelib1.inc";

gate ccz q0,q1,q2 {
h q2;
ccx q0,q1,q2;
h q2;
}
gate cs q0,q1 {
t q0;
t q1;
cx q0,q1;
tdg q1;
cx q0,q1;
}
qreg q[3];
creg c[3];
ccz q[0],q[1],q[2];
barrier q[0],q[1],q[2];
cs q[0],q[1];
