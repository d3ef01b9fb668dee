#include <core.p4>
#include <v1model.p4>
// A header of four octets, sent on port 3, with places for further texts.
header four_t { bit<16> x; bit<8> y; bit<8> z; }
struct hs { four_t f; } struct ms {
  // metadata
}
parser P(packet_in p, out hs hdr, inout ms meta, inout standard_metadata_t sm) {
  state start { p.extract(hdr.f);
    // parser
    transition accept; } }
control V(inout hs hdr, inout ms meta) { apply {
  // verify
} }
control I(inout hs hdr, inout ms meta, inout standard_metadata_t sm) {
  // locals
  apply { sm.egress_spec = 9w3;
    // ingress
  } }
control E(inout hs hdr, inout ms meta, inout standard_metadata_t sm) { apply {
  // egress
} }
control C(inout hs hdr, inout ms meta) { apply {
  // update
} }
control D(packet_out p, in hs hdr) { apply { p.emit(hdr.f); } }
V1Switch(P(), V(), I(), E(), C(), D()
  // blocks
) main;
