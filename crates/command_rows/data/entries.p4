header_type h_t { fields { which : 8; a : 32; b : 1; rest : 7; c : 8; r : 16; out : 48; } }
header h_t h;
parser start { extract(h); return ingress; }
action begin() { modify_field(standard_metadata.egress_spec, 1); }
action gone() { modify_field(standard_metadata.egress_spec, 2); }
action set(port, value) { modify_field(standard_metadata.egress_spec, port); modify_field(h.out, value); }
action show() { execute_meter(m, 0, h.c); execute_meter(n, 0, h.r); count(count, 0); }
action copied() { clone_i2e(h.r); }
table first { actions { begin; } default_action : begin(); }
table exact { reads { h.a : exact; h.b : exact; } actions { gone; set; } }
table lpm { reads { h.a : lpm; } actions { gone; set; } }
table none { actions { gone; set; } }
table one { reads { h.c : exact; } actions { gone; set; } size : 1; }
table range { reads { h.r : range; } actions { gone; set; } }
table ternary { reads { h.c : ternary; } actions { gone; set; } }
table shown { actions { show; } default_action : show(); }
table cloned { actions { copied; } default_action : copied(); }
counter count { type : packets; instance_count : 4; }
meter m { type : packets; instance_count : 1; }
meter n { type : packets; instance_count : 1; }
control ingress {
  apply(first);
  if (h.which == 1) { apply(exact); }
  if (h.which == 2) { apply(lpm); }
  if (h.which == 3) { apply(none); }
  if (h.which == 4) { apply(one); }
  if (h.which == 5) { apply(range); }
  if (h.which == 6) { apply(ternary); }
  if (h.which == 7) { apply(shown); }
  if (h.which == 8) { apply(cloned); }
}
