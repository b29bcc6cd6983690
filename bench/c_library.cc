// The calls of the library of sample_payment_c beside C++ protobuf, on the same bytes: nanoseconds a call, the least of five
// rounds by the processor time of one thread. bench/c_library.sh builds it.
#include <cstdint>
#include <cstdio>
#include <ctime>
#include <string>

#include "payment.pb.h"
#include "sample_payment_c.h"

using buffa::sample::Payment;

static double now() {
    timespec it;
    clock_gettime(CLOCK_THREAD_CPUTIME_ID, &it);
    return it.tv_sec * 1e9 + it.tv_nsec;
}

static volatile uint64_t sum;

template <class Call>
static double nanoseconds(size_t len, Call call) {
    long times = 200000 / (1 + len / 200) + 1;
    double least = 1e18;
    for (int round = 0; round < 5; round++) {
        double begun = now();
        for (long at = 0; at < times; at++) sum = sum + call();
        double took = (now() - begun) / times;
        if (took < least) least = took;
    }
    return least;
}

static void row(const std::string &said, const Payment &message) {
    std::string encoding = message.SerializeAsString(), out(encoding.size() + 64, 0);
    const uint8_t *bytes = reinterpret_cast<const uint8_t *>(encoding.data());
    uint8_t *room = reinterpret_cast<uint8_t *>(&out[0]);
    size_t len = encoding.size(), written;
    int32_t amount;
    Payment kept;
    double check = nanoseconds(len, [&] { return payment_check(bytes, len); });
    double fresh = nanoseconds(len, [&] { Payment it; return it.ParseFromArray(bytes, (int)len); });
    double again = nanoseconds(len, [&] { return kept.ParseFromArray(bytes, (int)len); });
    double canonical = nanoseconds(len, [&] { return payment_canonical(bytes, len, room, out.size(), &written); });
    double both = nanoseconds(len, [&] {
        Payment it;
        return it.ParseFromArray(bytes, (int)len) + it.SerializeToArray(room, (int)out.size());
    });
    double is_canonical = nanoseconds(len, [&] { return payment_is_canonical(bytes, len); });
    double told = nanoseconds(len, [&] { return payment_amount(bytes, len, &amount); });
    printf("| %s, %zu bytes | %.0f | %.0f | %.0f | %.0f | %.0f | %.0f | %.0f |\n", said.c_str(), len, check, fresh, again, canonical, both, is_canonical, told);
}

int main() {
    Payment empty, small, rent, large;
    small.set_amount(5);
    small.set_note("a");
    rent.set_amount(1999);
    rent.mutable_transfer()->set_to("DE89370400440532013000");
    rent.mutable_transfer()->set_day(12);
    rent.set_note("rent for December, thank you");
    large.set_card("c");
    large.set_note(std::string(100000, 'n'));
    printf("| `Payment` | check | C++ parse | C++ parse, into one that is kept | canonical | C++ parse and serialize | is canonical | a member |\n|---|---|---|---|---|---|---|---|\n");
    row("nothing", empty);
    row("a number and a text", small);
    row("with a message", rent);
    row("a long text", large);
    return 0;
}
