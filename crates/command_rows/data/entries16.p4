#include <core.p4>
#include <v1model.p4>
header h_t { bit<8> which; bit<32> a; bit<1> b; bit<7> rest; bit<8> c; bit<16> r; bit<48> out_of; }
struct hs { h_t h; }
struct ms { }
parser P(packet_in p, out hs hdr, inout ms meta, inout standard_metadata_t sm) { state start { p.extract(hdr.h); transition accept; } }
control V(inout hs hdr, inout ms meta) { apply { } }
control I(inout hs hdr, inout ms meta, inout standard_metadata_t sm) {
  action drop() { sm.egress_spec = 9w2; }
  action set(bit<9> port, bit<48> value) { sm.egress_spec = port; hdr.h.out_of = value; }
  @name("count") counter(32w4, CounterType.packets) counted;
  meter(32w1, MeterType.packets) m;
  meter(32w1, MeterType.packets) n;
  @name("exact") table t0 { key = { hdr.h.a : exact; hdr.h.b : exact; } actions = { drop; set; } }
  @name("lpm") table t1 { key = { hdr.h.a : lpm; } actions = { drop; set; } }
  table none { actions = { drop; set; } }
  table one { key = { hdr.h.c : exact; } actions = { drop; set; } size = 1; }
  @name("range") table t2 { key = { hdr.h.r : range; } actions = { drop; set; } }
  @name("ternary") table t3 { key = { hdr.h.c : ternary; } actions = { drop; set; } }
  apply {
    sm.egress_spec = 9w1;
    t0.apply(); t1.apply(); none.apply(); one.apply(); t2.apply(); t3.apply();
  }
}
control E(inout hs hdr, inout ms meta, inout standard_metadata_t sm) { apply { } }
control C(inout hs hdr, inout ms meta) { apply { } }
control D(packet_out p, in hs hdr) { apply { p.emit(hdr.h); } }
V1Switch(P(), V(), I(), E(), C(), D()) main;
