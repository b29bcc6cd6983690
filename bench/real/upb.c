/* upb MESSAGE..: times upb of 2020 (Debian's libupb-dev). The package has no plugin, so the layouts of messages are made of their
   descriptors by upb's own symbol table; its reader and its writer are those that generated code calls. Each message is in an arena.
   The package lacks the headers of what is called here, so it is declared. */
#include "real.h"
#include <stdbool.h>

typedef struct upb_arena upb_arena;
typedef struct upb_msglayout upb_msglayout;
typedef struct { const char *data; size_t size; } upb_strview;
typedef struct { bool ok; char msg[127]; } upb_status;

extern char upb_alloc_global[];
upb_arena *upb_arena_init(void *, size_t, void *);
void upb_arena_free(upb_arena *);
void *_upb_msg_new(const upb_msglayout *, upb_arena *);
bool upb_decode(const char *, size_t, void *, const upb_msglayout *, upb_arena *);
char *upb_encode(const void *, const upb_msglayout *, upb_arena *, size_t *);
void *upb_symtab_new(void);
const void *upb_symtab_addfile(void *, const void *, upb_status *);
const void *upb_symtab_lookupmsg(const void *, const char *);
const upb_msglayout *upb_msgdef_layout(const void *);
extern const upb_msglayout google_protobuf_FileDescriptorProto_msginit;

static const struct {
    const char *message, *type;
} all[] = {
    {"error_info", "google.rpc.ErrorInfo"},
    {"metrics", "io.prometheus.client.MetricFamily"},
    {"range", "etcdserverpb.RangeResponse"},
    {"osm", "OSMPBF.PrimitiveBlock"},
    {"onnx", "onnx.ModelProto"},
    {"descriptor", "google.protobuf.FileDescriptorSet"},
    {"descriptors", "google.protobuf.FileDescriptorSet"},
    {"places", "google.protobuf.FileDescriptorSet"},
};

struct job {
    const upb_msglayout *layout;
    const char *data;
    size_t len;
    void *kept;
};

static double parse(void *it, unsigned times) {
    struct job *job = it;
    bool done = true;
    double began = bench_now();
    for (unsigned at = 0; at < times; at++) {
        upb_arena *arena = upb_arena_init(NULL, 0, upb_alloc_global);
        done &= upb_decode(job->data, job->len, _upb_msg_new(job->layout, arena), job->layout, arena);
        upb_arena_free(arena);
    }
    double spent = bench_now() - began;
    return done ? spent : -1;
}

static double write(void *it, unsigned times) {
    struct job *job = it;
    bool done = true;
    double began = bench_now();
    for (unsigned at = 0; at < times; at++) {
        size_t len = 0;
        upb_arena *arena = upb_arena_init(NULL, 0, upb_alloc_global);
        done &= upb_encode(job->kept, job->layout, arena, &len) != NULL && len == job->len;
        upb_arena_free(arena);
    }
    double spent = bench_now() - began;
    return done ? spent : -1;
}

/* The types of the files of a FileDescriptorSet: each is a record of field 1, tag, length and bytes. */
static void *types(void) {
    static char set[1 << 20];
    FILE *in = fopen("upb_made/all.bin", "rb");
    size_t len = in ? fread(set, 1, sizeof set, in) : 0, at = 0;
    void *table = upb_symtab_new();
    upb_arena *arena = upb_arena_init(NULL, 0, upb_alloc_global);
    upb_status status;
    while (at < len) {
        size_t size = 0;
        int shift = 0;
        for (at++; set[at] & 0x80; shift += 7) size |= (size_t)(set[at++] & 0x7f) << shift;
        size |= (size_t)set[at++] << shift;
        void *file = _upb_msg_new(&google_protobuf_FileDescriptorProto_msginit, arena);
        status.ok = true;
        if (!upb_decode(set + at, size, file, &google_protobuf_FileDescriptorProto_msginit, arena) || !upb_symtab_addfile(table, file, &status)) {
            fprintf(stderr, "upb: %s\n", status.msg);
            exit(1);
        }
        at += size;
    }
    return table;
}

int main(int argc, char **argv) {
    void *table = types();
    for (int at = 1; at < argc; at++)
        for (size_t i = 0; i < sizeof all / sizeof *all; i++) {
            if (strcmp(all[i].message, argv[at])) continue;
            struct job job = {upb_msgdef_layout(upb_symtab_lookupmsg(table, all[i].type)), NULL, 0, NULL};
            job.data = (const char *)real_load(argv[at], &job.len);
            real_say(argv[at], "upb", "parse", job.len, parse, &job);
            upb_arena *arena = upb_arena_init(NULL, 0, upb_alloc_global);
            job.kept = _upb_msg_new(job.layout, arena);
            if (!upb_decode(job.data, job.len, job.kept, job.layout, arena)) return 1;
            real_say(argv[at], "upb", "write", job.len, write, &job);
            upb_arena_free(arena);
        }
    return 0;
}
