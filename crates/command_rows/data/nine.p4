header_type h_t { fields { a : 8; b : 8; c : 8; d : 8; e : 8; f : 8; g : 8; h : 8; i : 8; } }
header h_t h;
parser start { extract(h); return ingress; }
action go(port) { modify_field(standard_metadata.egress_spec, port); }
table first { actions { go; } default_action : go(500); }
table nine { reads { h.a : exact; h.b : exact; h.c : exact; h.d : exact; h.e : exact; h.f : exact; h.g : exact; h.h : exact; h.i : exact; } actions { go; } }
control ingress { apply(first); apply(nine); }
