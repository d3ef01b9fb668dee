header_type lab_t { fields { v : 7; bos : 1; } }
header lab_t labels[2];
parser start { extract(labels[next]);
  return select(latest.bos) { 1 : ingress; default : start; } }
action out3() { modify_field(standard_metadata.egress_spec, 3); }
table t { actions { out3; } default_action : out3(); }
control ingress { apply(t); }
