header_type h_t { fields { e : 8; l : 16; colour : 8; mark : 16; } }
header h_t h;
parser start { extract(h); return ingress; }
action pass(port) { modify_field(standard_metadata.egress_spec, port); }
action begin() { execute_meter(lights, 0, h.colour); register_read(h.mark, marks, 2); count(calls, 3); count(calls, 4); }
table first { actions { begin; } default_action : begin(); }
table acl { reads { h.e : exact; } actions { pass; } size : 2; }
table route { reads { h.l : lpm; } actions { pass; } size : 2; }
counter calls { type : packets; instance_count : 4; }
counter hits { type : packets_and_bytes; direct : acl; }
meter lights { type : packets; instance_count : 1; }
register marks { width : 16; instance_count : 3; }
control ingress { apply(first); apply(acl) { miss { apply(route); } } }
