/* Requests whatever their header: a control code, the lowest level that may do it, a body, and the return code where no level denies it,
   all by document 01, W-202, W-204, W-207 and section 10 of 001. And the two headers that they can be put behind. */
#ifndef ASKED_H
#define ASKED_H

#include "check.h"

/* Sizes of the headers, and places in them. */
enum { FIRST = 28, FIRST_CONTROL = 16, FIRST_CODE = 20, FIRST_LENGTH = 24 };
enum { LINUX = 20, LINUX_LENGTH = 4, LINUX_CODE = 8, LINUX_DIRECTION = 16 };

/* A body begins with these bytes, up to uDataLength of code 25 and to the image of code 4; the rest is FILL. */
enum { BEGIN = 44, FILL = 0xA7 };

struct asked {
    const char *what;
    uint8_t control, need;
    uint16_t size;
    uint32_t code;
    uint8_t begin[BEGIN];
};

/* Code 25 for the disk with the SAS address 5000C500000000xx: sector 5, one sector, and its uDataLength in units of 256 bytes. */
#define STP(phy, port, rate, address, type, ata, length)                                                       \
    {phy, port, rate, [4] = 0x50, [6] = 0xC5, [11] = address, [16] = type, [18] = ata, [20] = 5, [23] = 0x40, \
     [28] = 1, [41] = length}
#define DISK_0(ata) STP(0, 0xFF, 0, 1, 0x27, ata, 2)

enum { STP_SIZE = 136 + 512 };

/* Code 4 with an image of one block. */
enum { DOWNLOAD = 4, DOWNLOAD_SIZE = 44 + 512 };
#define VALIDATION {[1] = 2, [4] = 1}

/* On the adapter of samples/good. */
enum {
    DRIVER_INFO, CONTROLLER, STATUS, VALIDATE, PHY_INFO, SET_PHY_INFO, LINK_ERRORS, CLEAR, WRITE, READ, IDENTIFY, POWER_MODE, WRITE_BUFFER,
    PACKET, SIGNATURE, SCSI_ADDRESS, DEVICE_ADDRESS, CONNECTORS, GRANTS
};

static const struct asked GRANTED[GRANTS] = {
    [DRIVER_INFO] = {"driver info", 1, 1, 174, 0, {0}},
    [CONTROLLER] = {"controller configuration", 2, 1, 176, 0, {0}},
    [STATUS] = {"controller status", 3, 1, 36, 0, {0}},
    [VALIDATE] = {"validate firmware", DOWNLOAD, 2, DOWNLOAD_SIZE, 0, VALIDATION},
    [PHY_INFO] = {"phy info", 20, 1, 2052, 0, {0}},
    [SET_PHY_INFO] = {"set phy info", 21, 3, 8, 0, {0, 0, 0, 8, 2}},
    [LINK_ERRORS] = {"link errors", 22, 1, 20, 0, {0, 0}},
    [CLEAR] = {"link errors, cleared", 22, 3, 20, 0, {0, 1}},
    [WRITE] = {"write", 25, 3, STP_SIZE, 0, DISK_0(0x30)},
    [READ] = {"read", 25, 1, STP_SIZE, 0, DISK_0(0x20)},
    [IDENTIFY] = {"identify", 25, 1, STP_SIZE, 0, DISK_0(0xEC)},
    [POWER_MODE] = {"power mode", 25, 1, 136, 0, STP(0, 0xFF, 0, 1, 0x27, 0xE5, 0)},
    [WRITE_BUFFER] = {"write buffer, which needs Limited", 25, 2, STP_SIZE, 0, DISK_0(0xE8)},
    [PACKET] = {"packet, which needs Full", 25, 3, STP_SIZE, 0, DISK_0(0xA0)},
    [SIGNATURE] = {"signature", 26, 1, 24, 0, {0}},
    [SCSI_ADDRESS] = {"SCSI address", 27, 1, 20, 0, {0x50, 0, 0xC5, 0, 0, 0, 0, 2}},
    [DEVICE_ADDRESS] = {"device address", 28, 1, 20, 0, {0, 0, 2, 0}},
    [CONNECTORS] = {"connectors", 30, 1, 1152, 0, {0}},
};

/* Refused by their codes' own checks, on the adapter of samples/refusals. */
static const struct asked REFUSED[] = {
    {"set phy info: no such phy", 21, 3, 8, 2002, {4}},
    {"set phy info: a fixed phy", 21, 3, 8, 2000, {3}},
    {"set phy info: negotiated", 21, 3, 8, 3, {0, 2}},
    {"set phy info: class", 21, 3, 8, 3, {0, 0, 0, 0, 4}},
    {"set phy info: programmed byte", 21, 3, 8, 2001, {0, 0, 7}},
    {"set phy info: inverted", 21, 3, 8, 2001, {0, 0, 9, 8}},
    {"validate firmware: image check", DOWNLOAD, 2, DOWNLOAD_SIZE, 1, VALIDATION},
    {"validate firmware: no image", DOWNLOAD, 2, 44, 3, {[4] = 1}},
    {"commit firmware: an image", DOWNLOAD, 2, DOWNLOAD_SIZE, 3, {[1] = 2}},
    {"commit firmware: nothing staged", DOWNLOAD, 2, 44, 1, {0}},
    {"link errors: reset byte", 22, 1, 20, 3, {0, 2}},
    {"link errors: no such phy", 22, 1, 20, 2002, {4, 0}},
    {"link errors, cleared: no such phy", 22, 3, 20, 2002, {4, 1}},
    {"signature: no such phy", 26, 1, 24, 2002, {4}},
    {"signature: no SATA", 26, 1, 24, 2009, {2}},
    {"signature: none held", 26, 1, 24, 2010, {1}},
    {"SCSI address: no row", 27, 1, 20, 2013, {0x50, 0, 0xC5, 0, 0, 0, 0, 2}},
    {"device address: no row", 28, 1, 20, 2014, {0, 0, 2, 0}},
    {"write: FIS type", 25, 3, STP_SIZE, 3, STP(0, 0xFF, 0, 1, 0x34, 0x30, 2)},
    {"write: connection rate", 25, 3, STP_SIZE, 3, STP(0, 0xFF, 7, 1, 0x27, 0x30, 2)},
    {"write: neither phy nor port", 25, 3, STP_SIZE, 2005, STP(0xFF, 0xFF, 0, 1, 0x27, 0x30, 2)},
    {"write: no such phy", 25, 3, STP_SIZE, 2002, STP(4, 0xFF, 0, 1, 0x27, 0x30, 2)},
    {"write: no such port", 25, 3, STP_SIZE, 2006, STP(0xFF, 3, 0, 1, 0x27, 0x30, 2)},
    {"write: phy of another port", 25, 3, STP_SIZE, 2003, STP(0, 1, 0, 1, 0x27, 0x30, 2)},
    {"write: another destination", 25, 3, STP_SIZE, 2008, STP(0, 0xFF, 0, 2, 0x27, 0x30, 2)},
    {"write: no disk", 25, 3, STP_SIZE, 2008, STP(2, 0xFF, 0, 3, 0x27, 0x30, 2)},
    {"write: uDataLength", 25, 3, STP_SIZE, 3, STP(0, 0xFF, 0, 1, 0x27, 0x30, 1)},
};

enum { REFUSALS = sizeof REFUSED / sizeof REFUSED[0] };

/* One vector of many, all with this request. */
static inline void check_asked(const char *test, const struct asked *a, uint32_t vector, int holds)
{
    char name[80];
    snprintf(name, sizeof name, "%s: %s", test, a->what);
    check_at(name, vector, holds);
}

/* The signature of a control code, with its zero: 8 bytes. */
static inline const char *signature(uint32_t control)
{
    return control <= 4 ? "CSMIALL" : "CSMISAS";
}

/* The body in so many bytes; a code 4 that is granted has an image with its check. */
static inline void put_body(const struct asked *a, uint8_t *body, size_t length)
{
    memset(body, FILL, length);
    memcpy(body, a->begin, a->size < BEGIN ? a->size : BEGIN);
    if (a->control == DOWNLOAD && a->code == 0)
        put_word(body + DOWNLOAD_SIZE - 4, block_check(body + DOWNLOAD_SIZE - 512, 0));
}

/* A sound request under the first header, with so many bytes more behind its structure: the buffer's length. */
static inline size_t put_first(const struct asked *a, size_t more, uint8_t *buffer)
{
    memset(buffer, 0, FIRST);
    buffer[0] = FIRST;
    memcpy(buffer + 4, signature(a->control), 8);
    put_word(buffer + FIRST_CONTROL, a->control);
    put_word(buffer + FIRST_LENGTH, a->size);
    put_body(a, buffer + FIRST, a->size + more);
    return FIRST + a->size + more;
}

/* The same under the Linux header; its Direction is 0, to read. */
static inline size_t put_linux(const struct asked *a, size_t more, uint8_t *buffer)
{
    memset(buffer, 0, LINUX);
    put_word(buffer + LINUX_LENGTH, LINUX + (uint32_t)a->size);
    put_body(a, buffer + LINUX, a->size + more);
    return LINUX + a->size + more;
}

#endif
