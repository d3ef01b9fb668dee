#include <core.p4>
#include <v1model.p4>

header h_t {
    bit<48> f_a;
    bit<48> f_b;
    bit<16> f_c;
}

struct hs {
    h_t h;
}

struct ms { }

parser P(packet_in p, out hs hdr, inout ms meta, inout standard_metadata_t sm) {
    state start {
        p.extract(hdr.h);
        transition accept;
    }
}

control V(inout hs hdr, inout ms meta) {
    apply { }
}

control I(inout hs hdr, inout ms meta, inout standard_metadata_t sm) {
    @name("out3")
    action a() {
        sm.egress_spec = 9w3;
    }

    @name("t")
    table t {
        actions = {
            a;
        }
        default_action = a();
    }

    apply {
        if (sm.parser_error == error.NoError) {
            t.apply();
        } else {
            mark_to_drop(sm);
        }
    }
}

control E(inout hs hdr, inout ms meta, inout standard_metadata_t sm) {
    apply { }
}

control C(inout hs hdr, inout ms meta) {
    apply { }
}

control D(packet_out p, in hs hdr) {
    apply {
        p.emit(hdr.h);
    }
}

V1Switch(P(), V(), I(), E(), C(), D()) main;
