/* dnsm_is_compatible with libraries of other versions, which this file is in place of. */
#include "dnsm.h"

#undef NDEBUG
#include <assert.h>

static uint32_t version;

uint32_t dnsm_version(void)
{
    return version;
}

static bool is_compatible(uint32_t with)
{
    version = with;
    return dnsm_is_compatible();
}

int main(void)
{
    const uint32_t next_major = (DNSM_VERSION_NUMBER / 10000 + 1) * 10000;
    assert(!is_compatible(0) && !is_compatible(DNSM_VERSION_NUMBER - 1) && is_compatible(DNSM_VERSION_NUMBER));
    assert(is_compatible(DNSM_VERSION_NUMBER + 1) && is_compatible(next_major - 1) && !is_compatible(next_major));
    return 0;
}
