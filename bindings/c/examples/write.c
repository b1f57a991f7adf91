/* Writes a response by one call, and prints it in hexadecimal, for `show` to read. */
#include <dnsm.h>

#include <stdio.h>

#define TEXT(text) text, sizeof text - 1

int main(void)
{
    static const uint8_t address[] = {192, 0, 2, 7}, target[] = "\2ns\7example\3com";
    const dnsm_opt opt = {1232, 0, 0, 0};
    const dnsm_new_item items[] = {
        {TEXT("www.example.com."), NULL, 0, 0, DNSM_TYPE_A, DNSM_CLASS_IN, DNSM_QUESTION},
        {TEXT("www.example.com."), address, sizeof address, 300, DNSM_TYPE_A, DNSM_CLASS_IN, DNSM_ANSWER},
        {TEXT("example.com."), target, sizeof target, 3600, DNSM_TYPE_NS, DNSM_CLASS_IN, DNSM_AUTHORITY},
        {TEXT("ns.example.com."), address, sizeof address, 300, DNSM_TYPE_A, DNSM_CLASS_IN, DNSM_ADDITIONAL},
        {TEXT("."), NULL, 0, dnsm_opt_ttl(&opt), DNSM_TYPE_OPT, opt.udp_size, DNSM_ADDITIONAL},
    };
    uint8_t out[512];
    size_t len;
    dnsm_status status = dnsm_build(4660, DNSM_QR | DNSM_RD | DNSM_RA, items, sizeof items / sizeof *items, out, sizeof out, &len);
    if (status != DNSM_OK) {
        fprintf(stderr, "no message: %d\n", (int)status);
        return 1;
    }
    for (size_t i = 0; i < len; i++)
        printf("%02x", out[i]);
    printf("\n");
    if (ferror(stdout) || fclose(stdout) != 0) {
        fprintf(stderr, "the output can't be written\n");
        return 1;
    }
    return 0;
}
