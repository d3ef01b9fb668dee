// One action, `test`, is tried on a packet of which the headers h and s[0] are extracted. The actions `look` and `look_again` run behind it.
// What then stands in m leaves in the header o, which is added for it, in front of the octets that weren't parsed.
header_type h_t { fields { a : 8; b : 8; } }
header_type m_t { fields { w1 : 1; w8 : 8; w9 : 9; w16 : 16; w64 : 64; w127 : 127; w128 : 128; } }
header_type n_t { fields { w1 : 1 (saturating); w8 : 8 (saturating); w9 : 9 (saturating); w16 : 16 (saturating);
  w64 : 64 (saturating); w127 : 127 (saturating); w128 : 128 (saturating); } }
header_type o_t { fields { w1 : 8; w8 : 8; w9 : 16; w16 : 16; w64 : 64; w127 : 128; w128 : 128; } }
header h_t h;
header h_t g;
header h_t s[3];
header o_t o;
metadata m_t m;
metadata n_t n;
parser start { extract(h); extract(s[next]); return select(h.a) { 0 : others; default : ingress; } }
parser others { extract(g); extract(o); return ingress; }
field_list l { h.a; h.b; }
field_list keep { m.w8; }
field_list word { 72'0x313233343536373839; }
field_list ipv4 { 80'0x45000073000040004011; 80'0x0000c0a80001c0a800c7; }
field_list_calculation k { input { l; } algorithm : identity; output_width : 16; }
field_list_calculation k_low { input { l; } algorithm : identity; output_width : 4; }
field_list_calculation k_both { input { l; word; } algorithm : identity; output_width : 128; }
field_list_calculation k_crc16 { input { word; } algorithm : crc16; output_width : 16; }
field_list_calculation k_crc32 { input { word; } algorithm : crc32; output_width : 32; }
field_list_calculation k_csum { input { ipv4; } algorithm : csum16; output_width : 16; }
counter c { type : packets_and_bytes; instance_count : 4; }
register r { width : 8; instance_count : 4; }
register rw1 { width : 1; instance_count : 2; }
register rw8 { width : 8; instance_count : 2; }
register rw9 { width : 9; instance_count : 2; }
register rw16 { width : 16; instance_count : 2; }
register rw64 { width : 64; instance_count : 2; }
register rw127 { width : 127; instance_count : 2; }
register rw128 { width : 128; instance_count : 2; }
meter x { type : packets; instance_count : 4; }
meter y { type : bytes; instance_count : 4; }
action inner(q) { add(m.w16, q, 1); }
action nothing() { no_op(); }
action twice(q) { modify_field(m.w8, 9); modify_field(m.w128, q); }
action moved(q) { shift_right(m.w8, q, 4); }
action test(p) { }
action look() { }
action look_again() { }
action begin() { add_header(o); }
action show() { modify_field(o.w1, m.w1); modify_field(o.w8, m.w8); modify_field(o.w9, m.w9); modify_field(o.w16, m.w16); modify_field(o.w64, m.w64); modify_field(o.w127, m.w127); modify_field(o.w128, m.w128); }
action leave() { remove_header(h); remove_header(g); pop(s, 3); modify_field(standard_metadata.egress_spec, 3); }
table first { actions { begin; } default_action : begin(); }
table tested { actions { test; } default_action : test(300); }
table looked { actions { look; } default_action : look(); }
table looked_again { actions { look_again; } default_action : look_again(); }
table shown { actions { show; } default_action : show(); }
table last { actions { leave; } default_action : leave(); }
control ingress { apply(first); apply(tested); apply(looked); apply(looked_again); apply(shown); apply(last); }
