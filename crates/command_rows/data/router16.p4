#include <core.p4>
#include <v1model.p4>
header ethernet_t { bit<48> dst; bit<48> src; bit<16> kind; }
header ipv4_t { bit<4> version; bit<4> ihl; bit<8> diffserv; bit<16> total; bit<16> identification; bit<3> flags;
  bit<13> offset; bit<8> ttl; bit<8> protocol; bit<16> checksum; bit<32> src; bit<32> dst; }
struct hs { ethernet_t ethernet; ipv4_t ipv4; } struct ms { }
parser P(packet_in p, out hs hdr, inout ms meta, inout standard_metadata_t sm) {
  state start { p.extract(hdr.ethernet);
    transition select(hdr.ethernet.kind) { 16w0x0800 : parse_ipv4; default : accept; } }
  state parse_ipv4 { p.extract(hdr.ipv4); transition accept; } }
control V(inout hs hdr, inout ms meta) { apply {
  verify_checksum(hdr.ipv4.isValid(), { hdr.ipv4.version, hdr.ipv4.ihl, hdr.ipv4.diffserv, hdr.ipv4.total,
    hdr.ipv4.identification, hdr.ipv4.flags, hdr.ipv4.offset, hdr.ipv4.ttl, hdr.ipv4.protocol, hdr.ipv4.src,
    hdr.ipv4.dst }, hdr.ipv4.checksum, HashAlgorithm.csum16); } }
control I(inout hs hdr, inout ms meta, inout standard_metadata_t sm) {
  direct_counter(CounterType.packets) routed;
  action route(bit<9> port, bit<48> mac) { routed.count(); sm.egress_spec = port; hdr.ethernet.dst = mac;
    hdr.ipv4.ttl = hdr.ipv4.ttl - 8w1; }
  action nowhere() { mark_to_drop(sm); }
  table routes { key = { hdr.ipv4.dst : lpm; } actions = { route; nowhere; } size = 1024; counters = routed;
    default_action = nowhere(); }
  apply { if (sm.checksum_error == 1w0 && hdr.ipv4.isValid() && hdr.ipv4.ttl > 8w1) { routes.apply(); }
    else { mark_to_drop(sm); } } }
control E(inout hs hdr, inout ms meta, inout standard_metadata_t sm) { apply { } }
control C(inout hs hdr, inout ms meta) { apply {
  update_checksum(hdr.ipv4.isValid(), { hdr.ipv4.version, hdr.ipv4.ihl, hdr.ipv4.diffserv, hdr.ipv4.total,
    hdr.ipv4.identification, hdr.ipv4.flags, hdr.ipv4.offset, hdr.ipv4.ttl, hdr.ipv4.protocol, hdr.ipv4.src,
    hdr.ipv4.dst }, hdr.ipv4.checksum, HashAlgorithm.csum16); } }
control D(packet_out p, in hs hdr) { apply { p.emit(hdr.ethernet); p.emit(hdr.ipv4); } }
V1Switch(P(), V(), I(), E(), C(), D()) main;
