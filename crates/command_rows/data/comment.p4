header_type four_t { fields { x : 16; y : 8; z : 8; } }
header four_t f;
parser start { extract(f); return ingress; }
action act() { modify_field(standard_metadata.egress_spec, 3); /* mark */ }
table t { actions { act; } default_action : act(); }
control ingress { apply(t); }
