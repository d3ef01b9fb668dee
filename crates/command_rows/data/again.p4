header_type four_t { fields { x : 16; y : 8; z : 8; } }
header four_t f;
parser start { extract(f); return ingress; }
header_type m_t { fields { k : 8; l : 8; n : 8; } }
metadata m_t m { l : 5; }
field_list keep { m.k; }
action again() { modify_field(m.k, 1); modify_field(m.l, 2); modify_field(m.n, 4);
  resubmit(keep); }
action finish() { modify_field(f.y, m.k); add(f.z, m.l, m.n);
  modify_field(standard_metadata.egress_spec, 3); }
table ta { actions { again; } default_action : again(); }
table tb { actions { finish; } default_action : finish(); }
control ingress { if (m.k == 0) { apply(ta); } else { apply(tb); } }
