// Three fields of a packet that is sent on port 3, with places for further statements and declarations.
header_type eth_t { fields { a : 48; b : 48; c : 16; } } header eth_t eth;
parser start { extract(eth); return ingress; }
action act() { modify_field(standard_metadata.egress_spec, 3);
  // act
}
table t { actions { act; } default_action : act(); }
control ingress {
  apply(t);
}
// behind
