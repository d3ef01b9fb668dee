// One action, `test`, is tried in ingress on a packet that came in, and one, `test_behind`, in egress on such a packet and on one that was
// resubmitted. Each item that leaves has its kind, m.kept and m.lost in the header o, which egress adds.
header_type h_t { fields { a : 8; b : 8; } }
header_type o_t { fields { kind : 8; kept : 8; lost : 8; } }
header_type m_t { fields { kept : 8; lost : 8; w16 : 16; } }
header h_t h;
header o_t o;
metadata m_t m;
parser start { extract(h); return select(h.a) { 0 : others; default : ingress; } }
parser others { extract(o); return ingress; }
field_list keep { m.kept; }
action begin() { modify_field(m.kept, 1); modify_field(m.lost, 2); }
action test(p) { }
action test_behind() { }
action out3() { modify_field(standard_metadata.egress_spec, 3); }
action put() { add_header(o); }
action show() { modify_field(o.kind, standard_metadata.instance_type); modify_field(o.kept, m.kept); modify_field(o.lost, m.lost); }
table first { actions { begin; } default_action : begin(); }
table tested { actions { test; } default_action : test(300); }
table sent { actions { out3; } default_action : out3(); }
table tested_behind { actions { test_behind; } default_action : test_behind(); }
table added { actions { put; } default_action : put(); }
table shown { actions { show; } default_action : show(); }
control ingress { if (standard_metadata.instance_type == 0) { apply(first); apply(tested); } apply(sent); }
control egress {
  if (standard_metadata.instance_type == 0 or standard_metadata.instance_type == 6) { apply(tested_behind); }
  apply(added); apply(shown); }
