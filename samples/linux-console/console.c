/* console ADAPTER: a console of a few requests, each sent under the first header of CSMI with ascheknopf_request and then under the Linux
   header with ascheknopf_request_linux; prints the replies in words, and last what they came to. The adapter is opened at Restricted, which
   binds the first header alone. console.py does the same in Python. */
#include "ascheknopf.h"

#include <stdio.h>
#include <stdlib.h>
#include <string.h>

/* The first header's size, and where its return code is; of the Linux header include/ascheknopf.h says it. */
enum { FIRST = 28, FIRST_CODE = 20, LINUX = ASCHEKNOPF_LINUX_SIZE };
enum { DATA_READ = 0, DATA_WRITE = 1 };
enum { SECTOR = 512, BLOCK = 512, DISK = 8192, LARGEST = 2052, MOST = 32 };

/* Everything that the simulator works on is ours; the record too, a line for each request of either header. */
static uint8_t file[69 * 512], medium[32 * DISK], stage[ASCHEKNOPF_STAGE_SIZE], state[ASCHEKNOPF_STATE_SIZE];
static uint8_t buffer[FIRST + LARGEST], record[8 * MOST];
static size_t file_len, medium_len, record_len;

static uint32_t word(const uint8_t *at)
{
    return at[0] | (uint32_t)at[1] << 8 | (uint32_t)at[2] << 16 | (uint32_t)at[3] << 24;
}

static void put_word(uint8_t *at, uint32_t number)
{
    for (int i = 0; i < 4; i++)
        at[i] = number >> 8 * i & 0xFF;
}

static const char *number_in_words(uint32_t number)
{
    switch (number) {
    case 0: return "accepted";
    case 100: return "a buffer shorter than its header";
    case 106: return "a wrong medium or stage length";
    case 107: return "no sound state";
    default: return "see ascheknopf_open";
    }
}

static const char *code_in_words(uint32_t code)
{
    switch (code) {
    case 0: return "success";
    case 1: return "failed";
    case 2: return "bad control code";
    case 3: return "invalid parameter";
    case 4: return "denied at this level";
    default: return "see section 10 of CSMI";
    }
}

static const char *rate_in_words(uint8_t rate)
{
    switch (rate) {
    case 1: return "disabled";
    case 2: return "failed";
    case 3: return "spin-up hold";
    case 8: return "1.5 Gb/s";
    case 9: return "3.0 Gb/s";
    default: return "no link";
    }
}

static const char *status_in_words(uint32_t status)
{
    switch (status) {
    case 1: return "good";
    case 2: return "failed";
    case 3: return "offline";
    case 4: return "powered off";
    default: return "unknown";
    }
}

static const char *location_in_words(uint8_t location)
{
    switch (location) {
    case 2: return "internal";
    case 4: return "external";
    case 8: return "switchable";
    case 0x10: return "auto";
    default: return "place unknown";
    }
}

/* A request without its header: the control code by document 01, the Direction of the Linux header, and the body. */
struct request {
    const char *what;
    uint32_t control;
    uint8_t direction;
    size_t size;
    uint8_t body[LARGEST];
};

/* Keeps a line of the record: the call's number and the return code, which stands only in the reply of a call that gave 0. */
static void keep(uint32_t number, uint32_t code)
{
    if (record_len + 8 > sizeof record) {
        fprintf(stderr, "the record has no room for another line\n");
        exit(1);
    }
    put_word(record + record_len, number);
    put_word(record + record_len + 4, number == 0 ? code : ASCHEKNOPF_NO_CODE);
    record_len += 8;
}

/* The body of a granted reply, or NULL: what the header's call left in the buffer. */
static const uint8_t *reply_body(const char *header, uint32_t number, size_t code_at, size_t body_at)
{
    uint32_t code = word(buffer + code_at);
    keep(number, code);
    if (number != 0) {
        printf("    %s: refused with %u, %s\n", header, (unsigned)number, number_in_words(number));
        return NULL;
    }
    printf("    %s: %u, %s\n", header, (unsigned)code, code_in_words(code));
    return code == 0 ? buffer + body_at : NULL;
}

/* HeaderLength, the signature, the control code, and a Length that does not count the header. */
static const uint8_t *send_first(const struct request *r)
{
    memset(buffer, 0, FIRST);
    put_word(buffer, FIRST);
    memcpy(buffer + 4, r->control <= 4 ? "CSMIALL" : "CSMISAS", 8);
    put_word(buffer + 16, r->control);
    put_word(buffer + 24, (uint32_t)r->size);
    memcpy(buffer + FIRST, r->body, r->size);
    uint32_t number = ascheknopf_request(state, sizeof state, medium, medium_len, stage, sizeof stage, buffer, FIRST + r->size);
    return reply_body("first header", number, FIRST_CODE, FIRST);
}

/* A Length that counts the header, and the Direction; the control code goes beside the buffer. No signature, and no level is asked for. */
static const uint8_t *send_linux(const struct request *r)
{
    memset(buffer, 0, LINUX);
    put_word(buffer + ASCHEKNOPF_LINUX_LENGTH, LINUX + (uint32_t)r->size);
    buffer[ASCHEKNOPF_LINUX_DIRECTION] = r->direction;
    memcpy(buffer + LINUX, r->body, r->size);
    uint32_t number = ascheknopf_request_linux(state, sizeof state, medium, medium_len, stage, sizeof stage, r->control,
                                               buffer, LINUX + r->size);
    return reply_body("Linux header", number, ASCHEKNOPF_LINUX_RETURN_CODE, LINUX);
}

/* Sends a request under both headers; what came of it is shown after each. */
static void send_both(const struct request *r, void (*show)(const uint8_t *reply))
{
    printf("%s\n", r->what);
    show(send_first(r));
    show(send_linux(r));
}

/* Four numbers of 16 bits. */
static void print_revisions(const uint8_t *at)
{
    for (int i = 0; i < 8; i += 2)
        printf("%c%u", i == 0 ? ' ' : '.', at[i] | at[i + 1] << 8u);
    printf("\n");
}

static void show_controller(const uint8_t *reply)
{
    if (!reply)
        return;
    printf("        serial number %.81s, firmware", (const char *)reply + ASCHEKNOPF_CONTROLLER_SERIAL);
    print_revisions(reply + ASCHEKNOPF_CONTROLLER_FIRMWARE);
}

static void show_status(const uint8_t *reply)
{
    if (reply)
        printf("        %s\n", status_in_words(word(reply)));
}

/* References from the number of phys on are zero. */
static void show_connectors(const uint8_t *reply)
{
    for (unsigned n = 0; reply && n < state[ASCHEKNOPF_PHY_COUNT]; n++) {
        const uint8_t *connector = reply + ASCHEKNOPF_CONNECTOR_SIZE * n;
        printf("        phy %u: %.16s, %s\n", n, (const char *)connector + ASCHEKNOPF_CONNECTOR_NAME,
               location_in_words(connector[ASCHEKNOPF_CONNECTOR_LOCATION]));
    }
}

static void print_device(const uint8_t *attached)
{
    printf(", %s ", attached[0] != 0x10 ? "expander" : attached[3] & 1 ? "SATA disk" : "SAS device");
    for (int i = 12; i < 20; i++)
        printf("%02X", attached[i]);
}

static void show_phys(const uint8_t *reply)
{
    for (unsigned n = 0; reply && n < reply[0]; n++) {
        const uint8_t *entity = reply + 4 + 64 * n;
        printf("        phy %u, port %u: %s", n, entity[28], rate_in_words(entity[29]));
        if (entity[36] != 0)
            print_device(entity + 36);
        printf("\n");
    }
}

/* State and medium are ours to look at: what the adapter now holds of phy 0, what is on its disk, and what firmware is staged. */
static void show_link(const uint8_t *reply)
{
    (void)reply;
    printf("        its link: %s\n", rate_in_words(state[ASCHEKNOPF_PHY(0) + ASCHEKNOPF_PHY_ENTITY + 29]));
}

static void show_disk(const uint8_t *reply)
{
    (void)reply;
    printf("        on the disk: %.16s\n", (const char *)medium + 3 * SECTOR);
}

static void show_staged(const uint8_t *reply)
{
    (void)reply;
    printf("        %s", state[ASCHEKNOPF_STAGED] ? "staged:" : "nothing staged\n");
    if (state[ASCHEKNOPF_STAGED])
        print_revisions(state + ASCHEKNOPF_STAGED_REVISIONS);
}

static void show_data(const uint8_t *reply)
{
    if (reply)
        printf("        status %02Xh, %u bytes, which begin: %.16s\n", reply[50], (unsigned)word(reply + 132), (const char *)reply + 136);
}

/* An ATA command for sector 3 of phy 0's disk; the data goes in and comes out behind the 136 bytes of its structure. */
static struct request sector(const char *what, uint8_t direction, uint8_t command, const char *data)
{
    struct request r = {what, 25, direction, 136 + SECTOR, {0}};
    r.body[1] = 0xFF; /* whatever the port */
    memcpy(r.body + 4, state + ASCHEKNOPF_PHY(0) + ASCHEKNOPF_PHY_ENTITY + 48, 8);
    r.body[16] = 0x27, r.body[18] = command, r.body[20] = 3, r.body[23] = 0x40, r.body[28] = 1;
    put_word(r.body + 40, SECTOR);
    memcpy(r.body + 136, data, strlen(data));
    return r;
}

/* Firmware of one block: revisions 2.0.7.1, a text, and the check, which is the sum of the words before it, the block's number, 0, and 1. */
static void make_image(uint8_t *image)
{
    const uint8_t revisions[8] = {2, 0, 0, 0, 7, 0, 1, 0};
    uint32_t sum = 0 + 1;
    memset(image, 0, BLOCK);
    memcpy(image, revisions, 8);
    memcpy(image + 8, "lab firmware", 12);
    for (int at = 0; at < BLOCK - 4; at += 4)
        sum += word(image + at);
    put_word(image + BLOCK - 4, sum);
}

/* Firmware download: an image is validated and staged; without one, what is staged is made current. */
static struct request download(const char *what, const uint8_t *image, size_t length)
{
    struct request r = {what, 4, DATA_WRITE, ASCHEKNOPF_DOWNLOAD_DATA + length, {0}};
    put_word(r.body + ASCHEKNOPF_DOWNLOAD_BUFFER_LENGTH, (uint32_t)length);
    put_word(r.body + ASCHEKNOPF_DOWNLOAD_FLAGS, length > 0 ? ASCHEKNOPF_DOWNLOAD_VALIDATE : 0);
    memcpy(r.body + ASCHEKNOPF_DOWNLOAD_DATA, image, length);
    return r;
}

static void update(void)
{
    uint8_t image[BLOCK];
    make_image(image);
    const struct request validate = download("validate firmware 2.0.7.1", image, BLOCK), commit = download("commit firmware", image, 0);
    const struct request controller = {"controller configuration, after the update", 2, DATA_READ, 176, {0}};
    send_both(&validate, show_staged);
    send_both(&commit, show_staged);
    send_both(&controller, show_controller);
}

static unsigned long long total(const uint8_t *at)
{
    return word(at) | (unsigned long long)word(at + 4) << 32;
}

/* What the requests since the opening came to, counted by the library on the record. */
static void tally(void)
{
    uint8_t totals[ASCHEKNOPF_TOTALS_SIZE];
    uint32_t number = ascheknopf_tally(record, record_len, totals, sizeof totals);
    if (number != 0) {
        printf("no tally: refused with %u\n", (unsigned)number);
        return;
    }
    printf("%llu requests: %llu granted, %llu denied, %llu otherwise refused, %llu refused with 100\n",
           total(totals + ASCHEKNOPF_TOTALS_REQUESTS), total(totals + ASCHEKNOPF_TOTALS_GRANTED), total(totals + ASCHEKNOPF_TOTALS_DENIED),
           total(totals + ASCHEKNOPF_TOTALS_OTHERWISE_REFUSED), total(totals + ASCHEKNOPF_TOTALS_SHORT));
}

static void console(const char *text)
{
    uint32_t number = ascheknopf_open((const uint8_t *)text, strlen(text), file, file_len, medium, medium_len, state, sizeof state);
    printf("open with %s %u, %s\n", text, (unsigned)number, number_in_words(number));
    const struct request controller = {"controller configuration", 2, DATA_READ, 176, {0}};
    const struct request status = {"controller status", 3, DATA_READ, 36, {0}};
    const struct request connectors = {"connectors", 30, DATA_READ, 1152, {0}};
    const struct request phy_info = {"phy info", 20, DATA_READ, 2052, {0}};
    const struct request set_phy_info = {"set phy info, phy 0 at 1.5 Gb/s", 21, DATA_WRITE, 8, {0, 0, 0, 8}};
    const struct request write = sector("write sector 3", DATA_WRITE, 0x30, "written");
    const struct request read = sector("read sector 3", DATA_READ, 0x20, "");
    /* the number of an ioctl is not the control code that goes beside the buffer */
    const struct request ioctl = {"phy info by Linux's own number, CC770014h", 0xCC770014, DATA_READ, 2052, {0}};
    send_both(&controller, show_controller);
    send_both(&status, show_status);
    send_both(&connectors, show_connectors);
    send_both(&phy_info, show_phys);
    send_both(&set_phy_info, show_link);
    send_both(&write, show_disk);
    send_both(&read, show_data);
    update();
    send_both(&ioctl, show_phys);
    printf("the level is still %u\n", state[ASCHEKNOPF_LEVEL]);
    tally();
}

int main(int count, char **arguments)
{
    FILE *opened = count == 2 ? fopen(arguments[1], "rb") : NULL;
    if (opened == NULL) {
        fprintf(stderr, "use: console ADAPTER\n");
        return 2;
    }
    file_len = fread(file, 1, sizeof file, opened);
    fclose(opened);
    medium_len = file_len > 0 && file[0] <= 32 ? (size_t)file[0] * DISK : 0;
    memcpy(medium + 3 * SECTOR, "from the factory", 16);
    console("CSMI=Restricted;");
    return 0;
}
