/* nanopb MESSAGE..: times nanopb, whose members are all pointers to memory of their own, so a message is let go by pb_release. Debian's
   library is built for fields of up to 65,535 bytes, so it can't read the ONNX model. */
#include "descriptor.pb.h"
#include "error_info.pb.h"
#include "metrics.pb.h"
#include "osmformat.pb.h"
#include "range.pb.h"
#include "real.h"
#include <pb_decode.h>
#include <pb_encode.h>

static const struct {
    const char *message;
    const pb_msgdesc_t *fields;
    size_t size;
} all[] = {
    {"error_info", google_rpc_ErrorInfo_fields, sizeof(google_rpc_ErrorInfo)},
    {"metrics", io_prometheus_client_MetricFamily_fields, sizeof(io_prometheus_client_MetricFamily)},
    {"range", etcdserverpb_RangeResponse_fields, sizeof(etcdserverpb_RangeResponse)},
    {"osm", OSMPBF_PrimitiveBlock_fields, sizeof(OSMPBF_PrimitiveBlock)},
    {"descriptor", google_protobuf_FileDescriptorSet_fields, sizeof(google_protobuf_FileDescriptorSet)},
    {"descriptors", google_protobuf_FileDescriptorSet_fields, sizeof(google_protobuf_FileDescriptorSet)},
    {"places", google_protobuf_FileDescriptorSet_fields, sizeof(google_protobuf_FileDescriptorSet)},
};

struct job {
    const pb_msgdesc_t *fields;
    const uint8_t *data;
    size_t len;
    void *message, *room;
};

static bool read(struct job *job) {
    pb_istream_t in = pb_istream_from_buffer(job->data, job->len);
    return pb_decode(&in, job->fields, job->message);
}

static double parse(void *it, unsigned times) {
    struct job *job = it;
    bool done = true;
    double began = bench_now();
    for (unsigned at = 0; at < times; at++) {
        done &= read(job);
        pb_release(job->fields, job->message);
    }
    double spent = bench_now() - began;
    return done ? spent : -1;
}

static double write(void *it, unsigned times) {
    struct job *job = it;
    bool done = true;
    double began = bench_now();
    for (unsigned at = 0; at < times; at++) {
        pb_ostream_t out = pb_ostream_from_buffer(job->room, job->len + 100);
        done &= pb_encode(&out, job->fields, job->message);
    }
    double spent = bench_now() - began;
    return done ? spent : -1;
}

int main(int argc, char **argv) {
    for (int at = 1; at < argc; at++)
        for (size_t i = 0; i < sizeof all / sizeof *all; i++) {
            if (strcmp(all[i].message, argv[at])) continue;
            struct job job = {all[i].fields, NULL, 0, calloc(1, all[i].size), NULL};
            job.data = real_load(argv[at], &job.len);
            job.room = malloc(job.len + 100);
            real_say(argv[at], "nanopb", "parse", job.len, parse, &job);
            if (!read(&job)) return 1;
            real_say(argv[at], "nanopb", "write", job.len, write, &job);
            pb_release(job.fields, job.message);
            free(job.message), free(job.room);
        }
    return 0;
}
