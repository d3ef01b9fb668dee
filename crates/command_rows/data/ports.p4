header_type octet_t { fields { first : 8; } }
header octet_t o;
parser start { extract(o); return ingress; }
action back() { modify_field(standard_metadata.egress_spec, standard_metadata.ingress_port); }
table t { actions { back; } default_action : back(); }
control ingress { apply(t); }
