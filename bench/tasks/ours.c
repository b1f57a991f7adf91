/* The tasks of TTLs and of RDATA with calls for users of Rattle, by the exports of crates/bench. */

#include "tasks.h"

size_t dns_bench_age(const uint8_t *octets, size_t octets_len, size_t rounds);
size_t dns_bench_mx(const uint8_t *exchange, size_t exchange_len, uint32_t text, size_t rounds);

/* The octets of RDATA of MX with the exchange mail.example.com. */
enum { MX_LEN = 20 };

static const uint8_t octets[] = "\4mail\7example\3com", text[] = "mail.example.com.";

static struct input w2, f64;

void prepare(void)
{
    w2 = load_input("w2");
    f64 = load_input("f64");
}

static size_t run_age_w2(uint64_t times) { return dns_bench_age(w2.octets, w2.len, times); }
static size_t run_age_f64(uint64_t times) { return dns_bench_age(f64.octets, f64.len, times); }

static size_t run_mx(uint64_t times)
{
    return dns_bench_mx(octets, sizeof octets, 0, times) == times ? MX_LEN : 0;
}

static size_t run_mx_text(uint64_t times)
{
    return dns_bench_mx(text, sizeof text - 1, 1, times) == times ? MX_LEN : 0;
}

struct task tasks[] = {
    {"TTLs of w2", "age_ttls", .often = run_age_w2},
    {"TTLs of 64 KiB", "age_ttls", .often = run_age_f64},
    {"RDATA of MX", "mx", .often = run_mx},
    {"RDATA of MX", "from_text", .often = run_mx_text},
    {.work = NULL},
};
