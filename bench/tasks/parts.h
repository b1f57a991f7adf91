/* The names and texts of the tasks of names, texts and EDNS. */

#ifndef PARTS_H
#define PARTS_H

#include <stdint.h>

static const uint8_t www[] = "\3www\7example\3com", upper_www[] = "\3WWW\7Example\3com", parent[] = "\7example\3com",
                     mail[] = "\4mail\7example\3com";

#define TYPE_TEXT "TLSA"
#define WWW_TEXT "www.example.com."
#define MX_DATA "10 mail.example.com."
#define RECORD "example.com. 3600 IN MX " MX_DATA

#endif
