/* Ascheknopf, a simulator of a SAS host adapter, for programs in C and C++. `rt lib` in crates/exports makes the archive to
   link, crates/exports/out/libexports.a; it needs nothing but the C library.

   The simulator is two calls: ascheknopf_open opens an adapter, and ascheknopf_request handles one request, under the first header;
   ascheknopf_request_linux does so under the Linux header. ascheknopf_run opens an adapter and handles a whole session, and
   ascheknopf_run_both a session of both headers; ascheknopf_tally counts what the requests of a run came to. All work on bytes that the
   caller lends; they allocate nothing and keep nothing between calls. Any bytes of any length may be given, as a state too: what is wrong
   gets its number. A buffer that is written must not overlap another. A pointer may be null where its length is 0.

   text     the level text, such as "CSMI=Full;", without a final zero byte
   file     the adapter file; its byte 0 is the number of phys, 1 to 32 (the program's limit of 7 is not the library's)
   medium   the disks of the phys, 8,192 bytes each
   stage    where firmware is staged, ASCHEKNOPF_STAGE_SIZE bytes: only a granted validation of code 4 writes it, and no request reads it
   state    what the adapter remembers between calls, ASCHEKNOPF_STATE_SIZE bytes, described below
   buffer   one request, which begins with the 28-byte SRB_IO_CONTROL of CSMI or with the 20-byte Linux header, and then its reply
   session  requests one after the other: for each a length of 4 bytes, then so many bytes; of both headers: 12 bytes, described below
   record   a line of 8 bytes for each request: 4 bytes the call's number, 4 bytes the return code
   totals   how many lines of a record there are, and how many of each kind, ASCHEKNOPF_TOTALS_SIZE bytes, described below

   All numbers in these bytes are little-endian. A call's number is document 01's; a return code is that of section 10 of T10 04-284r0,
   CSMI, whose sections are cited below. */
#ifndef ASCHEKNOPF_H
#define ASCHEKNOPF_H

#include <stddef.h>
#include <stdint.h>

#ifdef __cplusplus
extern "C" {
#endif

/* The state. Every byte is named here, and every byte string of this size stands for a state, one that keeps the rules of document 01 or
   one that ascheknopf_request refuses with 107. It holds no pointers: it may be copied, stored and compared. */
#define ASCHEKNOPF_STATE_SIZE 6190

#define ASCHEKNOPF_LEVEL 0       /* 0 None, 1 Restricted, 2 Limited, 3 Full; any other value is refused */
#define ASCHEKNOPF_PHY_COUNT 1   /* p, 1 to 32 */
#define ASCHEKNOPF_ROW_COUNT 2   /* a, 0 to 64 */
#define ASCHEKNOPF_DRIVER_INFO 3 /* the Information of code 1 (6.1.4.1) */
#define ASCHEKNOPF_DRIVER_INFO_SIZE 174

/* Phy n, for n from 0 to 31; those from p on are 0. The offsets below are in its bytes. */
#define ASCHEKNOPF_PHY(n) (177 + 105 * (size_t)(n))
#define ASCHEKNOPF_PHY_SIZE 105
#define ASCHEKNOPF_PHY_ENTITY 0 /* a PHY_ENTITY (6.7.4.2) */
#define ASCHEKNOPF_PHY_ENTITY_SIZE 64
#define ASCHEKNOPF_PHY_COUNTERS 64  /* four of 32 bits: invalid dword, running disparity, loss of dword sync, phy reset problem (6.9) */
#define ASCHEKNOPF_PHY_SIGNATURE 80 /* its signature FIS */
#define ASCHEKNOPF_PHY_SIGNATURE_SIZE 20
#define ASCHEKNOPF_PHY_HELD 100        /* 1 if the signature is held, else 0 */
#define ASCHEKNOPF_PHY_FIXED 101       /* 1 if set phy info may not change it, else 0 */
#define ASCHEKNOPF_PHY_LOWEST 102      /* the device's lowest rate: 8 is 1.5 Gb/s, 9 is 3.0 Gb/s; 0 with no device */
#define ASCHEKNOPF_PHY_HIGHEST 103     /* its highest */
#define ASCHEKNOPF_PHY_SPINUP_HOLD 104 /* 1 if a SATA disk is held at spin-up, else 0; another value, or 1 without a SATA disk, is refused.
                                          With 1 the negotiated rate is 3 in place of 8 or 9, until a granted set phy info makes this 0 */

/* Row i, for i from 0 to 63; those from a on are 0. The offsets below are in its bytes. */
#define ASCHEKNOPF_ROW(i) (3537 + 20 * (size_t)(i))
#define ASCHEKNOPF_ROW_SIZE 20
#define ASCHEKNOPF_ROW_SAS_ADDRESS 0 /* 8 bytes */
#define ASCHEKNOPF_ROW_SAS_LUN 8     /* 8 bytes */
#define ASCHEKNOPF_ROW_HOST 16
#define ASCHEKNOPF_ROW_PATH 17
#define ASCHEKNOPF_ROW_TARGET 18
#define ASCHEKNOPF_ROW_LUN 19

/* The controller's Configuration of code 2 (6.2.4.3). It is packed; a structure compiled under pack(8) has other places from the firmware
   revisions on, and 180 bytes. The offsets below are in its bytes, and so in the body of a reply; revisions are four numbers of 16 bits:
   major, minor, build, release. */
#define ASCHEKNOPF_CONTROLLER 4817
#define ASCHEKNOPF_CONTROLLER_SIZE 176
#define ASCHEKNOPF_CONTROLLER_BASE_IO 0          /* 4 bytes */
#define ASCHEKNOPF_CONTROLLER_BASE_MEMORY 4      /* 4 bytes the low half, 4 the high */
#define ASCHEKNOPF_CONTROLLER_BOARD 12           /* 4 bytes */
#define ASCHEKNOPF_CONTROLLER_SLOT 16            /* 2 bytes */
#define ASCHEKNOPF_CONTROLLER_CLASS 18
#define ASCHEKNOPF_CONTROLLER_BUS_TYPE 19
#define ASCHEKNOPF_CONTROLLER_BUS_ADDRESS 20     /* 32 bytes */
#define ASCHEKNOPF_CONTROLLER_SERIAL 52          /* 81 bytes */
#define ASCHEKNOPF_CONTROLLER_FIRMWARE 133       /* revisions */
#define ASCHEKNOPF_CONTROLLER_BIOS 141           /* revisions */
#define ASCHEKNOPF_CONTROLLER_FLAGS 149          /* 4 bytes */
#define ASCHEKNOPF_CONTROLLER_RROM_FIRMWARE 153  /* revisions, of the redundant ROM */
#define ASCHEKNOPF_CONTROLLER_RROM_BIOS 161      /* revisions */
#define ASCHEKNOPF_CONTROLLER_RESERVED 169       /* 7 bytes */

/* Its Status of code 3 (6.3.4.1); the last 28 bytes are reserved. */
#define ASCHEKNOPF_STATUS 4993
#define ASCHEKNOPF_STATUS_SIZE 36
#define ASCHEKNOPF_STATUS_STATUS 0         /* 4 bytes */
#define ASCHEKNOPF_STATUS_OFFLINE_REASON 4 /* 4 bytes */

/* The connector of phy n, a Reference of code 30 (6.18.4.1), for n from 0 to 31; those from p on are 0. The offsets below are in its bytes;
   the last 15 are reserved. */
#define ASCHEKNOPF_CONNECTOR(n) (5029 + 36 * (size_t)(n))
#define ASCHEKNOPF_CONNECTOR_SIZE 36
#define ASCHEKNOPF_CONNECTOR_PINOUT 0 /* 4 bytes; a bit outside section 10's constants, 000F0F03h, is refused */
#define ASCHEKNOPF_CONNECTOR_NAME 4   /* bConnector, 16 bytes */
#define ASCHEKNOPF_CONNECTOR_LOCATION 20

/* The firmware that code 4 staged. Its bytes are in the stage; the state has whether there is some, and its revisions. */
#define ASCHEKNOPF_STAGED 6181           /* 1 if an image is staged, else 0; another value, or 0 with revisions that are not 0, is refused */
#define ASCHEKNOPF_STAGED_REVISIONS 6182 /* four of 16 bits: major, minor, build, release */
#define ASCHEKNOPF_STAGED_REVISIONS_SIZE 8

/* Opens an adapter: the number of the opening. A state of another size is 107, before every other check, and stays as it was. Else 0 is
   accepted, and the state is the level of the text and what the file holds, with nothing staged; 101 text, 102 file length, 103 block
   check, 104 count or field, 105 shared row and 106 medium length are refused, and the state is ASCHEKNOPF_STATE_SIZE zero bytes. What the
   state was before is not looked at. The medium is only read, and no stage is lent. */
uint32_t ascheknopf_open(const uint8_t *text, size_t text_len,
                         const uint8_t *file, size_t file_len,
                         const uint8_t *medium, size_t medium_len,
                         uint8_t *state, size_t state_len);

/* The stage. An image of firmware stands at its start; the bytes behind it are what they were. */
#define ASCHEKNOPF_STAGE_SIZE 16384

/* Handles one request: its number. 107 is a state of another size or one that breaks a rule, such as the zero state; 106 a medium that is
   not 8,192 bytes for each phy, and then a stage that is not ASCHEKNOPF_STAGE_SIZE bytes, whatever the request; 100 a buffer under 28
   bytes; they are tested in this order, and state, medium, stage and buffer stay as they were. Else it is 0: the buffer is the reply, with
   the return code in its bytes 20 to 23, and state, medium and stage are what the request made of them. They, and no others, are for the
   next request. */
uint32_t ascheknopf_request(uint8_t *state, size_t state_len,
                            uint8_t *medium, size_t medium_len,
                            uint8_t *stage, size_t stage_len,
                            uint8_t *buffer, size_t buffer_len);

/* The body of code 4, firmware download (6.4.4), which has the signature CSMIALL and needs Limited. Length counts the image too. */
#define ASCHEKNOPF_DOWNLOAD_BUFFER_LENGTH 0 /* 4 bytes: of the image, 0 where none is handed in */
#define ASCHEKNOPF_DOWNLOAD_FLAGS 4         /* 4 bytes; no flag but the one below is read */
#define ASCHEKNOPF_DOWNLOAD_STATUS 40       /* 2 bytes; 0 with return code 0, and else as it was */
#define ASCHEKNOPF_DOWNLOAD_SEVERITY 42     /* 2 bytes, the same */
#define ASCHEKNOPF_DOWNLOAD_DATA 44         /* the image */
#define ASCHEKNOPF_DOWNLOAD_VALIDATE 1

/* With the flag ASCHEKNOPF_DOWNLOAD_VALIDATE it validates an image: 1 to 32 blocks of 512 bytes in the block form of the adapter file, each
   with its check, numbered from 0. The first 8 bytes of the image are its revisions. It is copied to the start of the stage, whose rest
   stays, and is staged, in the place of one that was. Without the flag, and with a length of 0, it commits what is staged: the revisions at
   ASCHEKNOPF_CONTROLLER_FIRMWARE become those of the image, as code 2 then shows, and nothing is staged any more. The stage is not read.

   Return code 3 is another length, with the flag and without; 1 an image with a wrong check, or a commit with nothing staged; 4 a level
   that is too low. They are tested in this order: Length, which has to count the image, is 3; the level 4; the length of the image 3; and
   last 1. With these the stage and what was staged stay. */

/* The Linux header (IOCTL_HEADER, 4.2.3.1): 18 bytes, and two that are ignored. */
#define ASCHEKNOPF_LINUX_SIZE 20
#define ASCHEKNOPF_LINUX_CONTROLLER 0  /* IOControllerNumber, 4 bytes; not read */
#define ASCHEKNOPF_LINUX_LENGTH 4      /* Length, 4 bytes: it counts these 20 bytes too */
#define ASCHEKNOPF_LINUX_RETURN_CODE 8 /* ReturnCode, 4 bytes */
#define ASCHEKNOPF_LINUX_TIMEOUT 12    /* Timeout, 4 bytes; not read */
#define ASCHEKNOPF_LINUX_DIRECTION 16  /* Direction, 2 bytes: 0 read, 1 write; any other is return code 3 */

/* The control code of a Linux request is document 01's number, which is handed in beside the buffer. Section 10 has for ioctl:
     1  get driver info        0xCC770001        22  get link errors      0xCC770016
     2  get controller config  0xCC770002        25  STP passthrough      0xCC770019
     3  get controller status  0xCC770003        26  get SATA signature   0xCC770020
     4  firmware download      0xCC770004        27  get SCSI address     0xCC770021
     20 get phy info           0xCC770014        28  get device address   0xCC770022
     21 set phy info           0xCC770015        30  get connector info   0xCC770024
   These numbers themselves are unknown codes here (return code 2), and the last four do not end in document 01's. */

/* Handles one request under the Linux header, as ascheknopf_request does one under the first. Its control code is handed in beside the
   buffer: document 01's number, such as 1 for get driver info, and not an ioctl number of Linux. A buffer under 20 bytes is 100. There is
   no signature, the level is taken for Full, and the return code is in bytes 8 to 11 of the reply. */
uint32_t ascheknopf_request_linux(uint8_t *state, size_t state_len,
                                  uint8_t *medium, size_t medium_len,
                                  uint8_t *stage, size_t stage_len,
                                  uint32_t control,
                                  uint8_t *buffer, size_t buffer_len);

/* The return code in the line of a request that got none. */
#define ASCHEKNOPF_NO_CODE 0xFFFFFFFFu

/* Opens the adapter and handles the requests of the session in order, as the two calls would one by one; the state stays inside. A reply
   stands in its request's place, the lengths stay, the commands that write do so in the medium, and firmware is staged in the stage, which
   is handed on from request to request as the medium is. The line of a request is 0 and its return code. After a refused opening the zero
   state goes on: every request, a short one too, gets 107; else with a stage of another size every one gets 106, and one under 28 bytes
   gets 100; these with ASCHEKNOPF_NO_CODE, and request, medium and stage stay.

   It ends at the session's end, at a request that is cut short, or where the record has no room for another line; that request, what
   stands behind it and the rest of the record stay as they were. A request may have any length. Gives the number of requests handled. */
size_t ascheknopf_run(const uint8_t *text, size_t text_len,
                      const uint8_t *file, size_t file_len,
                      uint8_t *medium, size_t medium_len,
                      uint8_t *stage, size_t stage_len,
                      uint8_t *session, size_t session_len,
                      uint8_t *record, size_t record_len);

/* What stands before each request of a session of both headers: 12 bytes. */
#define ASCHEKNOPF_PREFIX_SIZE 12
#define ASCHEKNOPF_PREFIX_HEADER 0  /* 4 bytes: one of the two below */
#define ASCHEKNOPF_PREFIX_CONTROL 4 /* 4 bytes: the control code beside the Linux header; 0 with the first header, which has it inside */
#define ASCHEKNOPF_PREFIX_LENGTH 8  /* 4 bytes: of the request, without these 12 */

#define ASCHEKNOPF_FIRST_HEADER 0
#define ASCHEKNOPF_LINUX_HEADER 1

/* Opens the adapter and handles a session of both headers, as ascheknopf_run does one of the first. The 12 bytes before each request stay.
   A request under the Linux header is handled as by ascheknopf_request_linux: under 20 bytes it gets 100, and the code in its line is that
   of its bytes 8 to 11. Any other header, and a control code other than 0 with the first header, end the session as a request that is cut
   short does. */
size_t ascheknopf_run_both(const uint8_t *text, size_t text_len,
                           const uint8_t *file, size_t file_len,
                           uint8_t *medium, size_t medium_len,
                           uint8_t *stage, size_t stage_len,
                           uint8_t *session, size_t session_len,
                           uint8_t *record, size_t record_len);

/* The totals of a record: five numbers of 64 bits. Each line is of one kind, so the last four sum to the first. */
#define ASCHEKNOPF_TOTALS_SIZE 40
#define ASCHEKNOPF_TOTALS_REQUESTS 0           /* all lines */
#define ASCHEKNOPF_TOTALS_GRANTED 8            /* number 0 and return code 0 */
#define ASCHEKNOPF_TOTALS_DENIED 16            /* number 0 and return code 4 */
#define ASCHEKNOPF_TOTALS_OTHERWISE_REFUSED 24 /* number 0 and any other return code, 2000 too; or any number but 0 and 100, such as 107,
                                                  whatever stands in the place of its return code */
#define ASCHEKNOPF_TOTALS_SHORT 32             /* number 100, whatever its return code */

/* Counts the lines of a record and writes the totals: 0. A rest of the record under 8 bytes counts nowhere. Where fewer than
   ASCHEKNOPF_TOTALS_SIZE bytes are lent for the totals it gives 100, and they stay as they were; bytes past these stay too. The record is
   only read.

   To tally a run, give the first 8 * n bytes of its record, where n is the number that the run gave: what the record has past them stays,
   and is not the run's. After a refused opening every line is a 107, and so otherwise refused. */
uint32_t ascheknopf_tally(const uint8_t *record, size_t record_len,
                          uint8_t *totals, size_t totals_len);

#ifdef __cplusplus
}
#endif

#endif
