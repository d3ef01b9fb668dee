header_type h_t { fields { which : 8; e : 8; l : 16; w : 128; } }
header h_t h;
header_type v_t { fields { first : 8; } }
header v_t v;
parser start { extract(h); return select(latest.which) { 0x80 mask 0x80 : more; default : ingress; } }
parser more { extract(v); return ingress; }
action go(port) { modify_field(standard_metadata.egress_spec, port); }
table first { actions { go; } default_action : go(500); }
table e8 { reads { h.e : exact; } actions { go; } }
table l16 { reads { h.l : lpm; } actions { go; } }
table t16 { reads { h.l : ternary; } actions { go; } }
table r16 { reads { h.l : range; } actions { go; } }
table e128 { reads { h.w : exact; } actions { go; } }
table t128 { reads { h.w : ternary; } actions { go; } }
table l128 { reads { h.w : lpm; } actions { go; } }
table r128 { reads { h.w : range; } actions { go; } }
table e8l16 { reads { h.e : exact; h.l : lpm; } actions { go; } }
table none { actions { go; } }
table valid_v { reads { v : valid; } actions { go; } }
table masked { reads { h.l mask 0xff00 : exact; } actions { go; } }
table e16 { reads { h.l : exact; } actions { go; } }
table t16l16 { reads { h.l : ternary; h.w : lpm; } actions { go; } }
control ingress {
  apply(first);
  if ((h.which & 0x7f) == 1) { apply(e8); }
  if ((h.which & 0x7f) == 2) { apply(l16); }
  if ((h.which & 0x7f) == 3) { apply(t16); }
  if ((h.which & 0x7f) == 4) { apply(r16); }
  if ((h.which & 0x7f) == 5) { apply(e128); }
  if ((h.which & 0x7f) == 6) { apply(t128); }
  if ((h.which & 0x7f) == 7) { apply(l128); }
  if ((h.which & 0x7f) == 8) { apply(r128); }
  if ((h.which & 0x7f) == 9) { apply(e8l16); }
  if ((h.which & 0x7f) == 10) { apply(none); }
  if ((h.which & 0x7f) == 11) { apply(valid_v); }
  if ((h.which & 0x7f) == 12) { apply(masked); }
}
