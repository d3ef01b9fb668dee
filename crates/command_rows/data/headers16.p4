#include <core.p4>
#include <v1model.p4>
// Two headers of one type and a stack, of which the first header is extracted, sent on port 3, with places for further texts.
header h_t { bit<8> x; bit<8> y; bit<16> z; }
header v_t { bit<8> v; }
struct hs { h_t h; h_t i; v_t[2] s; } struct ms { @field_list(1) bit<8> k; bit<8> l;
  // metadata
}
parser P(packet_in p, out hs hdr, inout ms meta, inout standard_metadata_t sm) {
  state start {
    p.extract(hdr.h); transition accept;
  } }
control V(inout hs hdr, inout ms meta) { apply {
  // verify
} }
control I(inout hs hdr, inout ms meta, inout standard_metadata_t sm) {
  // locals
  apply { sm.egress_spec = 9w3;
    // ingress
  } }
control E(inout hs hdr, inout ms meta, inout standard_metadata_t sm) { apply {
  // egress
} }
control C(inout hs hdr, inout ms meta) { apply {
  // update
} }
control D(packet_out p, in hs hdr) { apply { p.emit(hdr.h); p.emit(hdr.i); p.emit(hdr.s); } }
V1Switch(P(), V(), I(), E(), C(), D()) main;
