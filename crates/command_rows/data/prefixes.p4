header_type four_t { fields { x : 16; y : 8; z : 8; } }
header four_t f;
parser start { extract(f); return ingress; }
action go(port) { modify_field(standard_metadata.egress_spec, port); }
table u { reads { f.x : lpm; } actions { go; } }
control ingress { apply(u); }
