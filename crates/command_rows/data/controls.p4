// A control, `tested`, is tried on a packet of which the header h is extracted. Most actions append a digit to the trace m.t, which leaves in
// the header o as it stands behind ingress, and then as it stands behind egress, where d5 has appended its 5.
header_type h_t { fields { a : 8; b : 8; } }
header_type m_t { fields { t : 64; } }
header_type o_t { fields { t : 64; behind : 64; } }
header h_t h;
header h_t g;
header o_t o;
metadata m_t m;
parser start { extract(h); return select(h.a) { 0 : others; default : ingress; } }
parser others { extract(g); extract(o); return ingress; }
counter c { type : packets_and_bytes; direct : e; }
action note(d) { shift_left(m.t, m.t, 4); bit_or(m.t, m.t, d); }
action other(d) { shift_left(m.t, m.t, 4); bit_or(m.t, m.t, d); }
action plain() { shift_left(m.t, m.t, 4); bit_or(m.t, m.t, 15); }
action byte(d) { modify_field(h.b, d); }
action swap() { modify_field(h.a, h.b); modify_field(h.b, h.a); }
table d1 { actions { note; } default_action : note(1); }
table d2 { actions { note; } default_action : note(2); }
table d3 { actions { note; } default_action : note(3); }
table d4 { actions { note; } default_action : note(4); }
table d5 { actions { note; } default_action : note(5); }
table e { reads { h.a : exact; } actions { plain; other; note; } }
table f { reads { h.a : exact; } actions { note; other; plain; } default_action : other(6); }
table l { reads { h.b : lpm; } actions { note; } }
table n { reads { h.a : ternary; h.b : ternary; } actions { note; } }
table r { reads { h.b : range; h.a mask 0x0f : exact; } actions { note; } }
table s { actions { swap; } default_action : swap(); }
table v { reads { h : valid; g : valid; } actions { note; } }
table w { actions { byte; } default_action : byte(-1); }
control third { apply(d3); }
control thrice { third(); apply(d4); third(); }
action begin() { add_header(o); }
action show() { modify_field(o.t, m.t); remove_header(h); modify_field(standard_metadata.egress_spec, 3); }
action show_behind() { modify_field(o.behind, m.t); }
table first { actions { begin; } default_action : begin(); }
table shown { actions { show; } default_action : show(); }
table shown_behind { actions { show_behind; } default_action : show_behind(); }
control tested { }
control ingress { apply(first); tested(); apply(shown); }
control egress { apply(d5); apply(shown_behind); }
