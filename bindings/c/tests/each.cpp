// A query, a response to it, the same response by dnsm_build, and its items, from C++. The examples of dnsm.h have the other calls.
#include "dnsm.h"

#undef NDEBUG
#include <cassert>
#include <cstdio>
#include <cstring>
#include <string>
#include <vector>

static const std::string question("\3www\7example\3com\0\0\1\0\1", 21);
static const std::string query_expected = std::string("\x12\x34\1\0\0\1\0\0\0\0\0\0", 12) + question;
static const std::string response_expected = std::string("\x12\x34\x85\0\0\1\0\1\0\0\0\0", 12) + question +
                                             std::string("\xc0\x0c\0\1\0\1\0\0\x0e\x10\0\4\xc0\0\2\1", 16);

static std::string octets(const std::vector<uint8_t> &buffer, size_t len)
{
    return std::string(reinterpret_cast<const char *>(buffer.data()), len);
}

int main()
{
    const std::string name = "www.example.com.";
    const uint8_t address[4] = {192, 0, 2, 1};
    std::vector<uint8_t> query(DNSM_MADE), response(DNSM_MADE), built(DNSM_MADE), out(DNSM_NAME_OCTETS);
    std::vector<char> text(DNSM_NAME_TEXT);
    size_t query_len, response_len, len;

    assert(dnsm_query(0x1234, true, name.data(), name.size(), 1, 1, query.data(), query.size(), &query_len) == DNSM_OK);
    assert(octets(query, query_len) == query_expected);
    assert(dnsm_respond_a(query.data(), query_len, true, 3600, address, response.data(), response.size(),
                         &response_len) == DNSM_OK);
    assert(octets(response, response_len) == response_expected);

    const dnsm_new_item items[] = {
        {name.data(), name.size(), nullptr, 0, 0, 1, 1, DNSM_QUESTION},
        {name.data(), name.size(), address, sizeof address, 3600, 1, 1, DNSM_ANSWER},
    };
    assert(dnsm_build(0x1234, 0x8500, items, 2, built.data(), built.size(), &len) == DNSM_OK);
    assert(octets(built, len) == response_expected);

    assert(dnsm_name_from_text(name.data(), name.size(), out.data(), out.size(), &len) == DNSM_OK);
    assert(octets(out, len) == question.substr(0, 17));
    assert(dnsm_status_text(DNSM_OK, text.data(), text.size(), &len) == DNSM_OK && std::strcmp(text.data(), "success") == 0);

    dnsm_opt opt = {1232, DNSM_DO, 0, 0};
    assert(dnsm_opt_ttl(&opt) == DNSM_DO);
    assert(dnsm_option_octets(12, nullptr, 0, out.data(), out.size(), &len) == DNSM_OK);
    assert(octets(out, len) == std::string("\0\14\0\0", 4));
    dnsm_item opt_item = {0, 0, DNSM_DO, DNSM_TYPE_OPT, 512, 4, DNSM_ADDITIONAL};
    assert(dnsm_opt_fields(&opt_item, &opt) == DNSM_OK && opt.udp_size == 512);
    dnsm_opt_option option;
    size_t place = 0;
    assert(dnsm_data_name(out.data(), len, &opt_item, 0, &place) == DNSM_NO_NAME);
    assert(dnsm_next_option(out.data(), len, &opt_item, &place, &option) == DNSM_OK && option.code == 12 && place == 4);

    dnsm_header header;
    dnsm_cursor cursor;
    dnsm_item item;
    const uint8_t *message = response.data();
    assert(dnsm_open(message, response_len, &header, &cursor) == DNSM_OK);
    assert(header.id == 0x1234 && header.flags == 0x8500 && header.counts[0] == 1 && header.counts[1] == 1);
    assert(dnsm_next(message, response_len, &cursor, &item) == DNSM_OK && item.section == DNSM_QUESTION);
    assert(item.place == 12 && item.type == 1 && item.class_ == 1);
    assert(dnsm_next(message, response_len, &cursor, &item) == DNSM_OK && item.section == DNSM_ANSWER);
    assert(item.place == 33 && item.ttl == 3600 && item.data == 45 && item.data_len == 4);
    assert(dnsm_name_text(message, response_len, item.place, text.data(), text.size(), &len) == DNSM_OK);
    assert(name == text.data() && len == name.size());
    assert(dnsm_name_end(message, response_len, item.place, &place) == DNSM_OK && place == item.place + 2);
    assert(dnsm_name_octets(message, response_len, item.place, out.data(), out.size(), &len) == DNSM_OK);
    assert(octets(out, len) == question.substr(0, 17));
    assert(dnsm_data_text(message, response_len, &item, text.data(), text.size(), &len) == DNSM_OK);
    assert(std::strcmp(text.data(), "192.0.2.1") == 0);
    assert(dnsm_type_text(item.type, text.data(), text.size(), &len) == DNSM_OK && text[0] == 'A' && len == 1);
    assert(dnsm_class_text(item.class_, text.data(), text.size(), &len) == DNSM_OK && std::strcmp(text.data(), "IN") == 0);
    assert(dnsm_next(message, response_len, &cursor, &item) == DNSM_END);
    assert(dnsm_next(message, response_len, &cursor, &item) == DNSM_END);
    std::puts("ok");
}
