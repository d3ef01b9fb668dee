#include <core.p4>
#include <v1model.p4>
header h_t { bit<48> a; bit<48> b; bit<16> c; }
struct hs { h_t h; } struct ms { }
parser P(packet_in p, out hs hdr, inout ms meta, inout standard_metadata_t sm) {
  state start { p.extract(hdr.h); transition accept; } }
control V(inout hs hdr, inout ms meta) { apply { } }
control I(inout hs hdr, inout ms meta, inout standard_metadata_t sm) { apply { sm.egress_spec = 9w3; } }
control E(inout hs hdr, inout ms meta, inout standard_metadata_t sm) { apply { } }
control C(inout hs hdr, inout ms meta) { apply { } }
control D(packet_out p, in hs hdr) { apply { p.emit(hdr.h); } }
V1Switch(P(), V(), I(), E(), C(), D()) main;
