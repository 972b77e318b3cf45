/* console ADAPTER: a console of a few requests, sent one at a time through the two calls of include/ascheknopf.h; prints the replies in
   words, and last what they came to. It opens the adapter at Restricted, then again at Full, and asks the same of both. console.py does the
   same in Python. */
#include "ascheknopf.h"

#include <stdio.h>
#include <stdlib.h>
#include <string.h>

enum { HEADER = 28, CODE = 20, SECTOR = 512, DISK = 8192, MOST = 16 };

/* Everything that the simulator works on is ours; the record too, a line for each request since the opening. */
static uint8_t file[69 * 512], medium[32 * DISK], stage[ASCHEKNOPF_STAGE_SIZE], state[ASCHEKNOPF_STATE_SIZE];
static uint8_t buffer[HEADER + 2052], record[8 * MOST];
static size_t file_len, medium_len, record_len;

static uint32_t word(const uint8_t *at)
{
    return at[0] | (uint32_t)at[1] << 8 | (uint32_t)at[2] << 16 | (uint32_t)at[3] << 24;
}

static void put_word(uint8_t *at, uint32_t number)
{
    for (int i = 0; i < 4; i++)
        at[i] = number >> 8 * i & 0xFF;
}

static const char *number_in_words(uint32_t number)
{
    switch (number) {
    case 0: return "accepted";
    case 100: return "a buffer under 28 bytes";
    case 101: return "a wrong level text";
    case 102: return "a wrong file length";
    case 103: return "a wrong block check";
    case 104: return "a wrong count or field";
    case 105: return "two rows that share an address";
    case 106: return "a wrong medium or stage length";
    default: return "no sound state";
    }
}

static const char *code_in_words(uint32_t code)
{
    switch (code) {
    case 0: return "success";
    case 2: return "bad control code";
    case 3: return "invalid parameter";
    case 4: return "denied at this level";
    case 2002: return "phy does not exist";
    case 2008: return "connection failed";
    default: return "see section 10 of CSMI";
    }
}

static const char *rate_in_words(uint8_t rate)
{
    switch (rate) {
    case 1: return "disabled";
    case 2: return "failed";
    case 3: return "spin-up hold";
    case 8: return "1.5 Gb/s";
    case 9: return "3.0 Gb/s";
    default: return "no link";
    }
}

static const char *status_in_words(uint32_t status)
{
    switch (status) {
    case 1: return "good";
    case 2: return "failed";
    case 3: return "offline";
    case 4: return "powered off";
    default: return "unknown";
    }
}

static const char *location_in_words(uint8_t location)
{
    switch (location) {
    case 2: return "internal";
    case 4: return "external";
    case 8: return "switchable";
    case 0x10: return "auto";
    default: return "place unknown";
    }
}

/* By the Attached bytes of a PHY_ENTITY. */
static const char *device_in_words(const uint8_t *attached)
{
    if (attached[0] != 0x10)
        return "expander";
    return attached[3] & 1 ? "SATA disk" : "SAS device";
}

static void print_address(const uint8_t *at)
{
    for (int i = 0; i < 8; i++)
        printf("%02X", at[i]);
}

/* A sound request of a code, its body zeros: where the body is, to be filled in. */
static uint8_t *request(uint8_t code, size_t size)
{
    memset(buffer, 0, sizeof buffer);
    buffer[0] = HEADER;
    memcpy(buffer + 4, code <= 4 ? "CSMIALL" : "CSMISAS", 8);
    buffer[16] = code;
    buffer[24] = size & 0xFF;
    buffer[25] = size >> 8 & 0xFF;
    return buffer + HEADER;
}

/* Keeps a line of the record: the call's number and the return code, which stands only in the reply of a call that gave 0. */
static void keep(uint32_t number, uint32_t code)
{
    if (record_len + 8 > sizeof record) {
        fprintf(stderr, "the record has no room for another line\n");
        exit(1);
    }
    put_word(record + record_len, number);
    put_word(record + record_len + 4, number == 0 ? code : ASCHEKNOPF_NO_CODE);
    record_len += 8;
}

/* Sends what stands in the buffer; 1 if it was granted. */
static int send(const char *what, size_t length)
{
    uint32_t number = ascheknopf_request(state, sizeof state, medium, medium_len, stage, sizeof stage, buffer, length);
    uint32_t code = word(buffer + CODE);
    keep(number, code);
    if (number != 0) {
        printf("%s: refused with %u, %s\n", what, (unsigned)number, number_in_words(number));
        return 0;
    }
    printf("%s: %u, %s\n", what, (unsigned)code, code_in_words(code));
    return code == 0;
}

static int send_body(const char *what, size_t size)
{
    return send(what, HEADER + size);
}

/* Four numbers of 16 bits. */
static void print_revision(const char *what, const uint8_t *at)
{
    printf("%s %u.%u.%u.%u", what, at[0] | at[1] << 8u, at[2] | at[3] << 8u, at[4] | at[5] << 8u, at[6] | at[7] << 8u);
}

/* A bit for a connector of one lane, and one for each lane of the others. */
static void print_pinout(uint32_t pinout)
{
    if (pinout & 2)
        printf(", SFF-8482");
    for (int lane = 1; lane <= 4; lane++) {
        if (pinout & 0x80u << lane)
            printf(", SFF-8470 lane %d", lane);
        if (pinout & 0x8000u << lane)
            printf(", SFF-8484 lane %d", lane);
    }
}

/* What a console shows before anything else: the controller, how it is, and where its phys are plugged in. */
static void front_page(void)
{
    const uint8_t *body = request(2, 176);
    if (send_body("controller configuration", 176)) {
        printf("    serial number %.81s, board %08Xh", (const char *)body + ASCHEKNOPF_CONTROLLER_SERIAL,
               (unsigned)word(body + ASCHEKNOPF_CONTROLLER_BOARD));
        print_revision("; firmware", body + ASCHEKNOPF_CONTROLLER_FIRMWARE);
        print_revision(", BIOS", body + ASCHEKNOPF_CONTROLLER_BIOS);
        printf("\n");
    }
    request(3, 36);
    if (send_body("controller status", 36))
        printf("    %s\n", status_in_words(word(body)));
    request(30, 1152);
    if (!send_body("connectors", 1152))
        return;
    for (unsigned n = 0; n < state[ASCHEKNOPF_PHY_COUNT]; n++) {
        const uint8_t *connector = body + ASCHEKNOPF_CONNECTOR_SIZE * n;
        printf("    phy %u: %.16s, %s", n, (const char *)connector + ASCHEKNOPF_CONNECTOR_NAME,
               location_in_words(connector[ASCHEKNOPF_CONNECTOR_LOCATION]));
        print_pinout(word(connector + ASCHEKNOPF_CONNECTOR_PINOUT));
        printf("\n");
    }
}

static void driver_info(void)
{
    const uint8_t *body = request(1, 174);
    if (send_body("driver info", 174))
        printf("    %.81s: %.81s; CSMI %u.%u\n", (const char *)body, (const char *)body + 81,
               body[170] | body[171] << 8u, body[172] | body[173] << 8u);
}

static void phy_info(void)
{
    const uint8_t *body = request(20, 2052);
    if (!send_body("phy info", 2052))
        return;
    for (unsigned n = 0; n < body[0]; n++) {
        const uint8_t *entity = body + 4 + 64 * n;
        printf("    phy %u, port %u: %s", n, entity[28], rate_in_words(entity[29]));
        if (entity[36] != 0) {
            printf(", %s ", device_in_words(entity + 36));
            print_address(entity + 48);
        }
        printf("\n");
    }
}

static void link_errors(void)
{
    const uint8_t *body = request(22, 20);
    if (send_body("link errors of phy 0", 20))
        printf("    %u invalid dwords, %u disparity errors, %u losses of sync, %u reset problems\n", (unsigned)word(body + 4),
               (unsigned)word(body + 8), (unsigned)word(body + 12), (unsigned)word(body + 16));
}

/* Holds phy 0 to 1.5 Gb/s. The state is ours to look at: what the adapter now holds of the phy is there. */
static void set_phy_info(void)
{
    request(21, 8)[3] = 8;
    send_body("set phy info, phy 0 at 1.5 Gb/s", 8);
    printf("    its link: %s\n", rate_in_words(state[ASCHEKNOPF_PHY(0) + ASCHEKNOPF_PHY_ENTITY + 29]));
}

/* An ATA command for sector 3 of phy 0's disk; the data goes in and comes out behind the 136 bytes of its structure. */
static void sector(const char *what, uint8_t command, const char *data)
{
    uint8_t *body = request(25, 136 + SECTOR);
    body[1] = 0xFF; /* whatever the port */
    memcpy(body + 4, state + ASCHEKNOPF_PHY(0) + ASCHEKNOPF_PHY_ENTITY + 48, 8);
    body[16] = 0x27, body[18] = command, body[20] = 3, body[23] = 0x40, body[28] = 1;
    body[41] = SECTOR >> 8;
    memcpy(body + 136, data, strlen(data));
    if (send_body(what, 136 + SECTOR))
        printf("    status %02Xh, %u bytes, which begin: %.16s\n", body[50], (unsigned)word(body + 132), (const char *)body + 136);
}

static unsigned long long total(const uint8_t *at)
{
    return word(at) | (unsigned long long)word(at + 4) << 32;
}

/* What the requests since the opening came to, counted by the library on the record. */
static void tally(void)
{
    uint8_t totals[ASCHEKNOPF_TOTALS_SIZE];
    uint32_t number = ascheknopf_tally(record, record_len, totals, sizeof totals);
    if (number != 0) {
        printf("no tally: refused with %u\n", (unsigned)number);
        return;
    }
    printf("%llu requests: %llu granted, %llu denied, %llu otherwise refused, %llu refused with 100\n",
           total(totals + ASCHEKNOPF_TOTALS_REQUESTS), total(totals + ASCHEKNOPF_TOTALS_GRANTED), total(totals + ASCHEKNOPF_TOTALS_DENIED),
           total(totals + ASCHEKNOPF_TOTALS_OTHERWISE_REFUSED), total(totals + ASCHEKNOPF_TOTALS_SHORT));
}

static void console(const char *text)
{
    record_len = 0;
    uint32_t number = ascheknopf_open((const uint8_t *)text, strlen(text), file, file_len, medium, medium_len, state, sizeof state);
    printf("open with %s %u, %s\n", text, (unsigned)number, number_in_words(number));
    printf("    level %u, %u phys, %u rows\n", state[ASCHEKNOPF_LEVEL], state[ASCHEKNOPF_PHY_COUNT], state[ASCHEKNOPF_ROW_COUNT]);
    front_page();
    driver_info();
    phy_info();
    link_errors();
    set_phy_info();
    sector("write sector 3", 0x30, "written");
    sector("read sector 3", 0x20, "");
    request(1, 174);
    send("driver info in 5 bytes", 5);
    tally();
}

int main(int count, char **arguments)
{
    FILE *opened = count == 2 ? fopen(arguments[1], "rb") : NULL;
    if (opened == NULL) {
        fprintf(stderr, "use: console ADAPTER\n");
        return 2;
    }
    file_len = fread(file, 1, sizeof file, opened);
    fclose(opened);
    medium_len = file_len > 0 && file[0] <= 32 ? (size_t)file[0] * DISK : 0;
    memcpy(medium + 3 * SECTOR, "from the factory", 16);
    console("CSMI=Restricted;");
    printf("\n");
    console("CSMI=Full;");
    return 0;
}
