header_type octet_t { fields { first : 8; } }
header octet_t o;
parser start { extract(o); return ingress; }
action gone() { count(n, 0); drop(); }
table t { actions { gone; } default_action : gone(); }
counter n { type : packets_and_bytes; instance_count : 1; }
control ingress { apply(t); }
