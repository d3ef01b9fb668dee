// Metadata and standard metadata are filled with 1, and shown in the header o as a later pass finds them. A list preserves the fields that
// bear it where they are declared themselves: list 1 q.n, r and t.n, and list 7 r.
#include <core.p4>
#include <v1model.p4>
header o_t {
  bit<8> p; bit<8> qm; bit<8> qn; bit<8> r; bit<8> tm; bit<8> tn;
  bit<8> port; bit<16> chosen; bit<16> out_port; bit<8> octets; bit<8> kind; bit<8> stop; bit<8> wrong;
}
struct hs { o_t o; }
struct ms { bit<5> p; @field_list(1) in_t q; @field_list(1, 7) bit<3> r; in_t t; }
struct in_t { bit<7> m; @field_list(1) bit<9> n; }
parser P(packet_in p, out hs hdr, inout ms meta, inout standard_metadata_t sm) { state start { transition accept; } }
control V(inout hs hdr, inout ms meta) { apply { } }
control I(inout hs hdr, inout ms meta, inout standard_metadata_t sm) {
  action fill() {
    meta.p = 1; meta.q.m = 1; meta.q.n = 1; meta.r = 1; meta.t.m = 1; meta.t.n = 1;
    sm.ingress_port = 1; sm.egress_spec = 1; sm.egress_port = 1; sm.packet_length = 1; sm.instance_type = 1;
    sm.parser_error = error.PacketTooShort; sm.checksum_error = 1;
  }
  action show() {
    hdr.o.setValid();
    hdr.o.p = 3w0 ++ meta.p; hdr.o.qm = 1w0 ++ meta.q.m; hdr.o.qn = meta.q.n[7:0]; hdr.o.r = 5w0 ++ meta.r;
    hdr.o.tm = 1w0 ++ meta.t.m; hdr.o.tn = meta.t.n[7:0];
    hdr.o.port = sm.ingress_port[7:0]; hdr.o.chosen = 7w0 ++ sm.egress_spec; hdr.o.out_port = 7w0 ++ sm.egress_port;
    hdr.o.octets = sm.packet_length[7:0]; hdr.o.kind = sm.instance_type[7:0];
    hdr.o.stop = 7w0 ++ (bit<1>) (sm.parser_error == error.PacketTooShort); hdr.o.wrong = 7w0 ++ sm.checksum_error;
  }
  apply {
    // ingress
  }
}
control E(inout hs hdr, inout ms meta, inout standard_metadata_t sm) {
  action fill() {
    meta.p = 1; meta.q.m = 1; meta.q.n = 1; meta.r = 1; meta.t.m = 1; meta.t.n = 1;
    sm.ingress_port = 1; sm.egress_spec = 1; sm.egress_port = 1; sm.packet_length = 1; sm.instance_type = 1;
    sm.parser_error = error.PacketTooShort; sm.checksum_error = 1;
  }
  action show() {
    hdr.o.setValid();
    hdr.o.p = 3w0 ++ meta.p; hdr.o.qm = 1w0 ++ meta.q.m; hdr.o.qn = meta.q.n[7:0]; hdr.o.r = 5w0 ++ meta.r;
    hdr.o.tm = 1w0 ++ meta.t.m; hdr.o.tn = meta.t.n[7:0];
    hdr.o.port = sm.ingress_port[7:0]; hdr.o.chosen = 7w0 ++ sm.egress_spec; hdr.o.out_port = 7w0 ++ sm.egress_port;
    hdr.o.octets = sm.packet_length[7:0]; hdr.o.kind = sm.instance_type[7:0];
    hdr.o.stop = 7w0 ++ (bit<1>) (sm.parser_error == error.PacketTooShort); hdr.o.wrong = 7w0 ++ sm.checksum_error;
  }
  apply {
    // egress
  }
}
control C(inout hs hdr, inout ms meta) { apply { } }
control D(packet_out p, in hs hdr) { apply { p.emit(hdr.o); } }
V1Switch(P(), V(), I(), E(), C(), D()) main;
