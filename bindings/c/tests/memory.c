/* The calls that allocate. One returns DNSM_NO_MEMORY if an allocation is refused, and a smaller one too. The exit status is how many do. */
#include "dnsm.h"

#undef NDEBUG
#include <assert.h>

#define TEXT(text) text, sizeof text - 1

static uint8_t out[512];

/* Whether an allocation was refused. If not, the call wrote so many octets. */
static bool is_refused(dnsm_status status, size_t len, size_t wanted)
{
    assert(status == DNSM_NO_MEMORY ? len == 0 : status == DNSM_OK && len == wanted);
    return status == DNSM_NO_MEMORY;
}

int main(void)
{
    static const uint8_t target[] = "\2ns\7example\3org";
    const dnsm_new_item items[] = {
        {TEXT("example.org"), NULL, 0, 0, DNSM_TYPE_NS, DNSM_CLASS_IN, DNSM_QUESTION},
        {TEXT("example.org"), target, sizeof target, 300, DNSM_TYPE_NS, DNSM_CLASS_IN, DNSM_ANSWER},
    };
    dnsm_item item;
    size_t len;
    dnsm_status status = dnsm_build(1, DNSM_QR, items, 2, out, sizeof out, &len);
    int refused = is_refused(status, len, 12 + 17 + 17);
    status = dnsm_data_from_text(DNSM_TYPE_NS, TEXT("ns.example.org."), out, sizeof out, &len);
    refused += is_refused(status, len, 16);
    status = dnsm_record_from_text(TEXT("example.org. 300 IN NS ns.example.org."), out, sizeof out, &len, &item);
    refused += is_refused(status, len, 13 + 10 + 16);
    return refused;
}
