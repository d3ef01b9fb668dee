header_type h_t { fields { which : 8; index : 32; value : 8; } }
header h_t h;
header_type m_t { fields { v : 128; } }
metadata m_t m;
parser start { extract(h); return ingress; }
action counted() { count(packets_only, 3); count(bytes_only, 3); count(both, 3); }
action outside() { count(few, h.index); }
action filled() { register_write(w1, 0, -1); register_write(w9, 0, -1); register_write(w127, 0, -1); register_write(w128, 0, -1); }
action more() {
  register_read(m.v, w1, 0); add_to_field(m.v, 1); register_write(w1, 0, m.v);
  register_read(m.v, w9, 0); add_to_field(m.v, 1); register_write(w9, 0, m.v);
  register_read(m.v, w127, 0); add_to_field(m.v, 1); register_write(w127, 0, m.v);
  register_read(m.v, w128, 0); add_to_field(m.v, 1); register_write(w128, 0, m.v);
}
action written() { register_write(two, h.index, h.value); }
action read() { register_read(h.value, two, h.index); }
action colour() { execute_meter(lights, h.index, h.value); }
table t1 { actions { counted; } default_action : counted(); }
table t2 { actions { outside; } default_action : outside(); }
table t3 { actions { filled; } default_action : filled(); }
table t4 { actions { more; } default_action : more(); }
table t5 { actions { written; } default_action : written(); }
table t6 { actions { read; } default_action : read(); }
table t7 { actions { colour; } default_action : colour(); }
counter packets_only { type : packets; instance_count : 4; }
counter bytes_only { type : bytes; instance_count : 4; }
counter both { type : packets_and_bytes; instance_count : 4; }
counter few { type : packets_and_bytes; instance_count : 2; }
register w1 { width : 1; instance_count : 2; }
register w9 { width : 9; instance_count : 2; }
register w127 { width : 127; instance_count : 2; }
register w128 { width : 128; instance_count : 2; }
register two { width : 128; instance_count : 2; }
meter lights { type : packets; instance_count : 2; }
control ingress {
  if (h.which == 1) { apply(t1); }
  if (h.which == 2) { apply(t2); }
  if (h.which == 3) { apply(t3); }
  if (h.which == 4) { apply(t4); }
  if (h.which == 5) { apply(t5); }
  if (h.which == 6) { apply(t6); }
  if (h.which == 7) { apply(t7); }
}
