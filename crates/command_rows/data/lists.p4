// The calculated field o.n is a 1, and then the bits of the lists behind `one` in the calculation k.
header_type h_t { fields { a : 4; b : 12; } }
header_type m_t { fields { v : 9; w : 7; } }
header_type o_t { fields { n : 128; } }
header h_t h;
header h_t s[2];
header h_t gone;
header o_t o;
metadata m_t m { w : 5; };
field_list one { 1'1; }
field_list outer { h.a; inner; inner; payload; }
field_list inner { h.b; 8'0x5a; }
field_list all { h; m; }
field_list absent { s[1]; gone.b; h.a; }
field_list standard { standard_metadata; }
field_list nothing { }
field_list_calculation k { input { one; nothing; } algorithm : identity; output_width : 128; }
calculated_field o.n { update k; }
parser start { extract(h); return select(h.a) { 15 : others; default : ingress; } }
parser others { extract(o); return ingress; }
action begin() { add_header(o); }
action leave() { modify_field(standard_metadata.egress_spec, 3); }
table first { actions { begin; } default_action : begin(); }
table last { actions { leave; } default_action : leave(); }
control ingress { apply(first); apply(last); }
