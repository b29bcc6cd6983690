// cpp MESSAGE..: times C++ protobuf.
#include <google/protobuf/descriptor.pb.h>

#include "error_info.pb.h"
#include "metrics.pb.h"
#include "onnx.pb.h"
#include "osmformat.pb.h"
#include "range.pb.h"
#include "real.h"

template <class M>
struct Job {
    const uint8_t *data;
    size_t len;
    M kept;
    uint8_t *room;

    // Makes a message, reads it and lets it go.
    static double fresh(void *it, unsigned times) {
        Job &job = *static_cast<Job *>(it);
        bool read = true;
        double began = bench_now();
        for (unsigned at = 0; at < times; at++) {
            M message;
            read &= message.ParseFromArray(job.data, static_cast<int>(job.len));
        }
        double spent = bench_now() - began;
        return read ? spent : -1;
    }

    // Reads into a message that was read into before.
    static double again(void *it, unsigned times) {
        Job &job = *static_cast<Job *>(it);
        bool read = true;
        double began = bench_now();
        for (unsigned at = 0; at < times; at++) read &= job.kept.ParseFromArray(job.data, static_cast<int>(job.len));
        double spent = bench_now() - began;
        return read ? spent : -1;
    }

    // Sizes and writes.
    static double write(void *it, unsigned times) {
        Job &job = *static_cast<Job *>(it);
        bool written = true;
        double began = bench_now();
        for (unsigned at = 0; at < times; at++) written &= job.kept.SerializeToArray(job.room, static_cast<int>(job.len));
        double spent = bench_now() - began;
        return written ? spent : -1;
    }
};

template <class M>
static void run(const char *message) {
    Job<M> job;
    job.data = real_load(message, &job.len);
    job.room = static_cast<uint8_t *>(malloc(job.len));
    real_say(message, "C++", "parse", job.len, Job<M>::fresh, &job);
    real_say(message, "C++", "parse into one that is kept", job.len, Job<M>::again, &job);
    real_say(message, "C++", "write", job.len, Job<M>::write, &job);
    free(job.room);
}

int main(int argc, char **argv) {
    for (int at = 1; at < argc; at++) {
        std::string name = argv[at];
        if (name == "error_info") run<google::rpc::ErrorInfo>(argv[at]);
        else if (name == "metrics") run<io::prometheus::client::MetricFamily>(argv[at]);
        else if (name == "range") run<etcdserverpb::RangeResponse>(argv[at]);
        else if (name == "osm") run<OSMPBF::PrimitiveBlock>(argv[at]);
        else if (name == "onnx") run<onnx::ModelProto>(argv[at]);
        else run<google::protobuf::FileDescriptorSet>(argv[at]);
    }
}
