// A packet of which h is extracted, and which leaves on port 3 behind what stands in ingress: h, i and the stack s, as far as they are valid.
#include <core.p4>
#include <v1model.p4>
header h_t { bit<8> x; bit<8> y; bit<16> z; }
header v_t { bit<8> v; }
struct hs { h_t h; h_t i; v_t[2] s; }
struct ms { @field_list(1) bit<8> k; bit<8> l; }
parser P(packet_in p, out hs hdr, inout ms meta, inout standard_metadata_t sm) {
  state start {
    p.extract(hdr.h);
    transition accept;
  }
}
control V(inout hs hdr, inout ms meta) { apply { } }
control I(inout hs hdr, inout ms meta, inout standard_metadata_t sm) {
  // locals
  apply {
    sm.egress_spec = 9w3;
    // ingress
  }
}
control E(inout hs hdr, inout ms meta, inout standard_metadata_t sm) { apply { } }
control C(inout hs hdr, inout ms meta) { apply { } }
control D(packet_out p, in hs hdr) { apply { p.emit(hdr.h); p.emit(hdr.i); p.emit(hdr.s); } }
V1Switch(P(), V(), I(), E(), C(), D()) main;
