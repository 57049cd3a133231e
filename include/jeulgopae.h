/* jeulgopae.h: a proved protocol engine for bench tools that read distance sensors.
 *
 * A station that answers MEWTOCOL-COM and Modbus (RTU, ASCII) frames over one register table; a host side that writes MEWTOCOL
 * requests and reads their replies; the frames of a laser head; catalogue numbers and frame addresses; two registers as one signed
 * number; the attributes of a table from a catalogue file; a bit count; whether the order of two frames can matter.
 *
 * Every function takes any values and any contents, ends, keeps no state, and touches no memory but what it is lent: arrays, and
 * for the two Modbus stations a record of counters.
 * What a caller owes is what C can't say: an array of n elements is n readable (or writable) elements, and an array that a
 * function may write, or the record, overlaps nothing else that it is lent. NULL is fine where the count is 0, and never for the
 * record. docs/C.md says how to link.
 *
 * Every answer is an int32_t. A number from 0 on is a length or a value; a number below 0 is none, so no refusal can be taken
 * for a length (jeulgopae_pair_value refuses nothing: its answer is a number of either sign). A call that is refused leaves every
 * lent array as it was (JEULGOPAE_CARRIED_OUT is no refusal); a Modbus call that gives JEULGOPAE_BAD_CHECK or
 * JEULGOPAE_OTHER_STATION still counts in its record. */
#ifndef JEULGOPAE_H
#define JEULGOPAE_H

#include <stddef.h>
#include <stdint.h>

/* ---- version ----
 *
 * While the first number is 0, a program may have to change when the second grows, and need not when the third does. */
#define JEULGOPAE_VERSION "0.13.1"
#define JEULGOPAE_VERSION_MAJOR 0
#define JEULGOPAE_VERSION_MINOR 13
#define JEULGOPAE_VERSION_PATCH 1

#ifdef __cplusplus
extern "C" {
#endif

/* ---- refusals ---- */

enum {
    JEULGOPAE_BAD_TABLE = -1,      /* over 65,536 words, not one attribute a word, or an attribute above 3 */
    JEULGOPAE_BAD_STATION = -2,    /* a station outside 1 to 99 (MEWTOCOL) or 1 to 247 (Modbus) */
    JEULGOPAE_SMALL_ROOM = -3,     /* room for the answer too small */
    JEULGOPAE_OUT_OF_RANGE = -5,   /* a number or address that the conversion doesn't take */
    JEULGOPAE_BAD_LENGTHS = -6,    /* bit count: lengths differ, or are over 256 */
    JEULGOPAE_BAD_SHAPE = -10,     /* a frame whose shape is wrong */
    JEULGOPAE_BAD_CHECK = -11,     /* a frame whose check is wrong */
    JEULGOPAE_OTHER_STATION = -12, /* a frame for, or from, another station; or for all, and not carried out */
    JEULGOPAE_NO_REQUEST = -14,    /* what was asked can't be a request; or a number that no pair is written with */
    JEULGOPAE_CARRIED_OUT = -15,   /* no refusal: a frame for all was carried out, and there is no reply */
    JEULGOPAE_BAD_FILE = -20,      /* a catalogue file that is malformed */
    JEULGOPAE_TOO_DEEP = -21,      /* one with a group on a fifth level */
    JEULGOPAE_RUNS_MEET = -22,     /* one with two runs that meet along one chain, or with an address beyond the attributes */
    JEULGOPAE_NAME_TWICE = -23,    /* one in which a name stands twice */
    JEULGOPAE_NO_SUCH_NAME = -24,  /* one without the name that was asked for */
    JEULGOPAE_NOTHING = -1000,     /* data has no such word or contact */
    JEULGOPAE_APART = -1001,       /* no refusal: two frames that meet at no cell, so that their order can't matter, function 08 excepted */
    JEULGOPAE_UNKNOWN_PROFILE = -2000, /* a profile's number that is none */
    JEULGOPAE_UNKNOWN_FORMAT = -2001, /* a format's number that is none */
    JEULGOPAE_NOT_THIS = -130000   /* 13: less the place in the frame; a good frame, but not a reply to what was asked */
};

/* A station's error reply, as jeulgopae_mewtocol_read gives it: -256 for error 00h to -511 for FFh. */
#define JEULGOPAE_IS_ERROR_REPLY(answer) ((answer) <= -256 && (answer) >= -511)
#define JEULGOPAE_ERROR_OF(answer) (-256 - (answer))

/* Refusal 13 with its place, as jeulgopae_mewtocol_read and jeulgopae_laser_distance give it: -130007 is 13, at 7. The place counts
 * from 0 in the whole frame: frame[7] is the first character that its position doesn't allow. Where no single character is wrong,
 * the place equals the frame's length. Plain -130000 is never given, so a program asks JEULGOPAE_IS_NOT_THIS. */
#define JEULGOPAE_IS_NOT_THIS(answer) ((answer) <= JEULGOPAE_NOT_THIS)
#define JEULGOPAE_PLACE_OF(answer) (JEULGOPAE_NOT_THIS - (answer))

/* ---- sizes ---- */

enum {
    JEULGOPAE_TABLE_LIMIT = 65536, /* words in a table, at most */
    JEULGOPAE_STATION_ROOM = 2048, /* bytes of room that a MEWTOCOL station asks for, in either form; enough at every station */
    JEULGOPAE_MODBUS_ROOM = 513,   /* bytes of room that a Modbus station asks for */
    JEULGOPAE_REQUEST_ROOM = 118,  /* bytes of room that the writers ask for: the laser head's, and MEWTOCOL's for the ordinary form */
    JEULGOPAE_EXPANDED_ROOM = 2048, /* bytes of room that the MEWTOCOL writer asks for in the expanded form */
    JEULGOPAE_REPLY_DATA = 6,      /* where the data of a MEWTOCOL reply begins in its frame */
    JEULGOPAE_LASER_DATA = 5,      /* where the data of a laser head's frame begins */
    JEULGOPAE_FILE_LIMIT = 65535   /* bytes of a catalogue file, at most */
};

/* ---- attributes of a word ---- */

enum {
    JEULGOPAE_HOLE = 0,
    JEULGOPAE_READ = 1,
    JEULGOPAE_WRITE = 2,
    JEULGOPAE_READ_WRITE = 3
};

/* ---- profiles ----
 *
 * What a head takes besides what the attributes grant; a station is told the profile with each call. JEULGOPAE_NO_PROFILE limits
 * nothing. With JEULGOPAE_HL_G2_50 a write that would leave one of these registers outside its range is refused whole, and so is one
 * that names one register of a pair and not the other:
 *
 *   words                  registers             take
 *   100 and 101            400101 and 400102     -950,000 to 950,000, one signed number, the lower 16 bits in the lower register
 *   102 and 103            400103 and 400104     the same
 *   53, 55                 400054, 400056        0
 *   57                     400058                1 to 4
 *   70                     400071                0 to 2
 *
 * The reply is Modbus exception 03, or MEWTOCOL error 61, after the tests of the attributes (02, 66); for all stations it is
 * JEULGOPAE_OTHER_STATION. SD counts as a write of its word to every register that it names, function 16h as one of what it would
 * leave; so 16h on a register of a pair is always refused. Reads, contacts, coils and every other register go by the attributes alone.
 * Any other profile's number gives JEULGOPAE_UNKNOWN_PROFILE, before anything else is looked at: nothing changes, and nothing counts. */
enum {
    JEULGOPAE_NO_PROFILE = 0,
    JEULGOPAE_HL_G2_50 = 1 /* HL-G2, 50 mm type */
};

/* ---- stations ----
 *
 * Word k of the table is data register DT k, frame address k and holding register 400001 + k; attributes[k] says what may be done
 * with it. Words 130 to 135 are also the relay words WR0100 to WR0105. Each call is given one whole frame, and looks at every attribute
 * before it looks at the frame: a table costs what it has words, so lend no more of them than there are.
 *
 * Back comes the length of the reply, which stands in the first bytes of the room; later bytes stay, and the words are as the
 * request leaves them (an error reply or an exception changes none). Or a refusal: JEULGOPAE_UNKNOWN_PROFILE, JEULGOPAE_BAD_TABLE,
 * JEULGOPAE_BAD_STATION and JEULGOPAE_SMALL_ROOM are the caller's to mend, and come in this order before the frame is looked at;
 * JEULGOPAE_BAD_SHAPE, JEULGOPAE_BAD_CHECK and JEULGOPAE_OTHER_STATION mean silence. After any refusal words and room are as before,
 * and nothing goes on the line.
 *
 * A frame for all stations (station 0 in Modbus, the characters FF in MEWTOCOL) is never answered. A write that would have got a good
 * reply here is carried out: JEULGOPAE_CARRIED_OUT, the words are as the request leaves them, the room as it was. Anything else for
 * all is JEULGOPAE_OTHER_STATION, a wrong check in MEWTOCOL too.
 *
 *   Modbus RTU: frame 00 06 00 05 12 34 95 6D gives JEULGOPAE_CARRIED_OUT, and words[5] is 0x1234
 *   MEWTOCOL: "%FF#WDD0000500005341255\r" gives JEULGOPAE_CARRIED_OUT, and words[5] is 0x1234 */

/* Answers a MEWTOCOL request at a station of 1 to 99. A wrong check is no refusal here but error reply 40.
 *
 * A frame's first character says its form: '%' the ordinary one, of at most 118 characters, '<' the expanded one, of at most 2,048;
 * a longer frame, and any other first character, is JEULGOPAE_BAD_SHAPE. The reply, an error reply too, has the header of its request.
 * The room is at least JEULGOPAE_STATION_ROOM, whatever the form.
 *
 *   uint16_t words[200] = {[105] = 0x1234, [106] = 0xFFFF};
 *   uint8_t attributes[200], room[JEULGOPAE_STATION_ROOM];
 *   memset(attributes, JEULGOPAE_READ_WRITE, sizeof attributes);
 *   int32_t n = jeulgopae_mewtocol_station(words, 200, attributes, 200, JEULGOPAE_NO_PROFILE, 1,
 *                                          (const uint8_t *)"%01#RDD001050010757\r", 20, room, sizeof room);
 *   n is 21, and the room begins with "%01$RD3412FFFF000012\r"; for "<01#RDD00105001074E\r" it is 21, and
 *   "<01$RD3412FFFF00000B\r"
 *   with JEULGOPAE_HL_G2_50, "%01#WDD0010000101F07E0E0020\r" (28 bytes) writes 950,000, and "%01#WDD0010000101F17E0E0021\r", 950,001,
 *   gives 9, and the room begins with "%01!6102\r" */
int32_t jeulgopae_mewtocol_station(uint16_t *words, size_t words_count, const uint8_t *attributes, size_t attributes_count,
                                   uint32_t profile, uint32_t own, const uint8_t *frame, size_t frame_count, uint8_t *room,
                                   size_t room_count);

/* ---- line counters ----
 *
 * One record belongs to the host for each Modbus line; it starts with all five at 0. Every Modbus call, RTU or ASCII, is lent it and
 * counts in it; each count stops at 0xFFFF. A call that gives JEULGOPAE_UNKNOWN_PROFILE, JEULGOPAE_BAD_TABLE, JEULGOPAE_BAD_STATION,
 * JEULGOPAE_SMALL_ROOM or JEULGOPAE_BAD_SHAPE counts nothing. A master reads the counts with function 08, sub-functions 0B to 0F, and
 * sets all five to 0 with sub-function 0A (00 is an echo). A frame counts before it is answered, so 0B and 0E show the frame that
 * asks, and a clear leaves all five at 0, its own frame included. */
struct jeulgopae_counters {
    uint16_t bus;        /* 0B: frames with a right check, whatever station they are for */
    uint16_t damaged;    /* 0C: frames refused with JEULGOPAE_BAD_CHECK */
    uint16_t exceptions; /* 0D: exceptions that went out */
    uint16_t own;        /* 0E: frames to this station or to 0 */
    uint16_t unanswered; /* 0F: frames to 0, whatever became of them */
};

/* Answers a Modbus RTU request at a station of 1 to 247.
 *
 *   struct jeulgopae_counters counters = {0};
 *   with words[133] == 1: frame 01 03 00 85 00 01 95 E3 gives 7, the room begins with 01 03 02 00 01 79 84, and counters.bus and
 *   counters.own are 1; then frame 01 08 00 0B 00 00 91 C9 gives 8, and the room begins with 01 08 00 0B 00 02 10 08 */
int32_t jeulgopae_rtu_station(uint16_t *words, size_t words_count, const uint8_t *attributes, size_t attributes_count,
                              uint32_t profile, uint32_t own, const uint8_t *frame, size_t frame_count, uint8_t *room,
                              size_t room_count, struct jeulgopae_counters *counters);

/* Answers a Modbus ASCII request at a station of 1 to 247.
 *
 *   struct jeulgopae_counters counters = {0};
 *   with words[133] == 1: ":01030085000176\r\n" gives 15, the room begins with ":0103020001F9\r\n", and counters.bus is 1 */
int32_t jeulgopae_ascii_station(uint16_t *words, size_t words_count, const uint8_t *attributes, size_t attributes_count,
                                uint32_t profile, uint32_t own, const uint8_t *frame, size_t frame_count, uint8_t *room,
                                size_t room_count, struct jeulgopae_counters *counters);

/* ---- two masters on one table ----
 *
 * Whether the order of two frames can matter. A cell is a bit of a word: bit b of word k is cell 16 k + b. Which cells a frame may read
 * and which it may write follows from the frame, the attributes, the station that hears it and the profile: all 16 of each word that it
 * names, or the contacts and coils that it names; function 16h reads and writes all 16. A frame that is refused whatever the words hold
 * (damaged, for another station, lacking an attribute) has none, nor has function 08.
 *
 * Back comes the first cell that one of the two may write and the other may read or write; or JEULGOPAE_APART where there is none: then
 * both orders leave the same words and give each frame the same answer and reply. That is proved for any two frames in any two formats,
 * function 08 excepted. JEULGOPAE_UNKNOWN_PROFILE, and then JEULGOPAE_UNKNOWN_FORMAT, for a number that is none.
 *
 *   uint8_t attributes[200];
 *   memset(attributes, JEULGOPAE_READ_WRITE, sizeof attributes);
 *   int32_t cell = jeulgopae_meeting(attributes, 200, JEULGOPAE_NO_PROFILE,
 *                                    JEULGOPAE_MEWTOCOL, 1, (const uint8_t *)"%01#WCSR1031120\r", 16,
 *                                    JEULGOPAE_RTU, 1, (const uint8_t *)"\x01\x05\x00\xD1\xFF\x00\xDC\x03", 8);
 *   cell is 2129, bit 1 of word 133: contact R1031 is that coil; for "%01#WCSR1030121\r", the contact beside it, it is JEULGOPAE_APART */
enum {
    JEULGOPAE_MEWTOCOL = 0,
    JEULGOPAE_RTU = 1,
    JEULGOPAE_ASCII = 2
};

int32_t jeulgopae_meeting(const uint8_t *attributes, size_t attributes_count, uint32_t profile, uint32_t one_format, uint32_t one_own,
                          const uint8_t *one_frame, size_t one_count, uint32_t other_format, uint32_t other_own,
                          const uint8_t *other_frame, size_t other_count);

/* ---- MEWTOCOL host ----
 *
 * What is asked: a command, up to three numbers and up to three lists. Numbers and lists that a command doesn't use are not looked
 * at. A contact is one number, 16 * relay word + bit: R1030 is 16 * 103. A list may name a contact twice. Contacts are read as a list,
 * one contact too: a list of one goes on the line as RCS, a longer one as RCP.
 *
 *   command                      first         second   value       contacts  values  words
 *   JEULGOPAE_READ_CONTACTS                                         1 to 8
 *   JEULGOPAE_READ_RELAYS        start         end
 *   JEULGOPAE_WRITE_CONTACT      contact                0 or 1
 *   JEULGOPAE_WRITE_CONTACTS                                        1 to 8    as many
 *   JEULGOPAE_WRITE_RELAYS       start         end                                    end + 1 - start
 *   JEULGOPAE_READ_WORDS         start         end
 *   JEULGOPAE_WRITE_WORDS        start         end                                    end + 1 - start
 *   JEULGOPAE_FILL_WORDS         start         end      the word
 *
 * 0 is no command: it asks for nothing. */
enum {
    JEULGOPAE_READ_CONTACTS = 1,  /* RCS for one, RCP for two to eight */
    JEULGOPAE_READ_RELAYS = 2,    /* RCC, at most 27 words (509 in the expanded form) */
    JEULGOPAE_WRITE_CONTACT = 3,  /* WCS */
    JEULGOPAE_WRITE_CONTACTS = 4, /* WCP */
    JEULGOPAE_WRITE_RELAYS = 5,   /* WCC, at most 24 words (507) */
    JEULGOPAE_READ_WORDS = 6,     /* RD, at most 27 words (509) */
    JEULGOPAE_WRITE_WORDS = 7,    /* WD, at most 24 words (507) */
    JEULGOPAE_FILL_WORDS = 8      /* SD */
};

/* The form of the frames, in request and reply alike. Any other number asks for nothing: JEULGOPAE_NO_REQUEST. */
enum {
    JEULGOPAE_ORDINARY = 0, /* '%', at most 118 characters */
    JEULGOPAE_EXPANDED = 1  /* '<', at most 2,048 characters */
};

/* Writes a request to a station of 1 to 99 into the first bytes of a room of at least 118 (JEULGOPAE_EXPANDED: 2,048); later bytes
 * stay. Back comes its length, or, in this order, JEULGOPAE_BAD_STATION, JEULGOPAE_SMALL_ROOM or JEULGOPAE_NO_REQUEST (a number too
 * large, a list empty or too long, a command that is none of the eight, a form that is none of the two); the room is then as before.
 *
 *   uint8_t room[JEULGOPAE_REQUEST_ROOM];
 *   int32_t n = jeulgopae_mewtocol_write(1, JEULGOPAE_ORDINARY, JEULGOPAE_READ_WORDS, 105, 107, 0, NULL, 0, NULL, 0, NULL, 0, room,
 *                                        sizeof room);
 *   n is 20, and the room begins with "%01#RDD001050010757\r"
 *   const uint32_t contacts[] = {16 * 103, 16 * 101};
 *   n = jeulgopae_mewtocol_write(1, JEULGOPAE_ORDINARY, JEULGOPAE_READ_CONTACTS, 0, 0, 0, contacts, 1, NULL, 0, NULL, 0, room,
 *                                sizeof room);
 *   n is 15, and the room begins with "%01#RCSR103015\r"; with 2 contacts it is 21, and "%01#RCP2R1030R101076\r" */
int32_t jeulgopae_mewtocol_write(uint32_t station, uint32_t form, uint32_t command, uint32_t first, uint32_t second, uint32_t value,
                                 const uint32_t *contacts, size_t contacts_count, const uint8_t *values, size_t values_count,
                                 const uint16_t *words, size_t words_count, uint8_t *room, size_t room_count);

/* Reads the reply to what a station was asked, given the same station, form, command, numbers and lists; nothing is changed. Back comes
 * how many characters of data the reply holds, from frame + JEULGOPAE_REPLY_DATA on (0 for the reply to a write); or the station's
 * error reply, -256 - error (JEULGOPAE_IS_ERROR_REPLY, JEULGOPAE_ERROR_OF); or, in this order, JEULGOPAE_BAD_STATION,
 * JEULGOPAE_NO_REQUEST, JEULGOPAE_BAD_SHAPE, JEULGOPAE_BAD_CHECK, JEULGOPAE_OTHER_STATION or JEULGOPAE_NOT_THIS less a place
 * (JEULGOPAE_IS_NOT_THIS, JEULGOPAE_PLACE_OF). Where letters and length are those of the reply, or of an error reply, the place is
 * that of the first character of the data, or of the error number, that is no upper-case hex digit, or no 0 or 1 for a contact; else
 * it is the frame's length. How long a frame may be goes by its own header; a good frame with the header of the other form is
 * JEULGOPAE_NOT_THIS, less the frame's length.
 *
 *   int32_t n = jeulgopae_mewtocol_read(1, JEULGOPAE_ORDINARY, JEULGOPAE_READ_WORDS, 105, 107, 0, NULL, 0, NULL, 0, NULL, 0,
 *                                       frame, 21);
 *   for "%01$RD3412FFFF000012\r" n is 12; for "%01!6605\r" (9 bytes) it is -256 - 0x66;
 *   for "%01$RD3G12FFFF000061\r" it is -130007, for the G; for "%01$RC120\r" (10 bytes), another command's reply, -130010;
 *   for "<01$RD3412FFFF00000B\r", the expanded form's reply, -130021 */
int32_t jeulgopae_mewtocol_read(uint32_t station, uint32_t form, uint32_t command, uint32_t first, uint32_t second, uint32_t value,
                                const uint32_t *contacts, size_t contacts_count, const uint8_t *values, size_t values_count,
                                const uint16_t *words, size_t words_count, const uint8_t *frame, size_t frame_count);

/* Word i of the data of a reply, 0 to 65,535; JEULGOPAE_NOTHING past the last, or where no word stands. Nothing is changed.
 *
 *   jeulgopae_data_word((const uint8_t *)"3412FFFF0000", 12, 0) is 0x1234 */
int32_t jeulgopae_data_word(const uint8_t *part, size_t part_count, uint32_t i);

/* Contact i of the data of a reply, 0 or 1; JEULGOPAE_NOTHING past the last, or where no contact stands. Nothing is changed.
 *
 *   jeulgopae_data_contact((const uint8_t *)"101", 3, 1) is 0 */
int32_t jeulgopae_data_contact(const uint8_t *part, size_t part_count, size_t i);

/* ---- laser head ---- */

/* Reads a laser head's frame; nothing is changed. Back comes 65536 * first + 256 * second + n: the two command bytes and how many
 * bytes of data stand from frame + JEULGOPAE_LASER_DATA on; or JEULGOPAE_BAD_SHAPE or JEULGOPAE_BAD_CHECK.
 *
 *   for "/020D0059." (10 bytes) it is 65536 * '0' + 256 * 'D' + 2 */
int32_t jeulgopae_laser_read(const uint8_t *frame, size_t frame_count);

#define JEULGOPAE_LASER_FIRST(answer) ((uint8_t)((answer) >> 16))
#define JEULGOPAE_LASER_SECOND(answer) ((uint8_t)((answer) >> 8))
#define JEULGOPAE_LASER_COUNT(answer) ((answer) & 0xFF)

/* Writes a frame with two command bytes and at most 99 bytes of data into the first bytes of a room of at least 118; later bytes
 * stay. Back comes its length; or JEULGOPAE_SMALL_ROOM, then JEULGOPAE_NO_REQUEST for more data, and the room is as before.
 *
 *   for '0', 'D' and the data "00" it is 10, and the room begins with "/020D0059." */
int32_t jeulgopae_laser_write(uint8_t first, uint8_t second, const uint8_t *bytes, size_t bytes_count, uint8_t *room,
                              size_t room_count);

/* The distance that a laser head's frame tells, 0 to 99,999 hundredths of a millimetre; or JEULGOPAE_BAD_SHAPE, JEULGOPAE_BAD_CHECK,
 * or JEULGOPAE_NOT_THIS less a place (JEULGOPAE_IS_NOT_THIS, JEULGOPAE_PLACE_OF) for a good frame that tells none. With the command
 * 0D and six bytes of data the place is that of the first byte that isn't as it has to be, five digits and a NUL; else the frame's
 * length. Nothing is changed.
 *
 *   for "/060D12345\0" "6C." (14 bytes) it is 12345; with the NUL trimmed away it is JEULGOPAE_BAD_SHAPE;
 *   for "/060D12 45\0" "7F." it is -130007, for the blank; for "/020D0059." (10 bytes) it is -130010 */
int32_t jeulgopae_laser_distance(const uint8_t *frame, size_t frame_count);

/* ---- numbers and addresses ---- */

/* The address that a frame carries for a holding register's catalogue number, 400001 to 465536; else JEULGOPAE_OUT_OF_RANGE.
 *
 *   jeulgopae_register_address(400134) is 133 */
int32_t jeulgopae_register_address(uint32_t number);

/* The catalogue number of a register's address, 0 to 65,535; else JEULGOPAE_OUT_OF_RANGE.
 *
 *   jeulgopae_register_number(133) is 400134 */
int32_t jeulgopae_register_number(uint32_t address);

/* The address that a frame carries for a coil's catalogue number, 161 to 256; else JEULGOPAE_OUT_OF_RANGE.
 *
 *   jeulgopae_coil_address(209) is 208 */
int32_t jeulgopae_coil_address(uint32_t number);

/* The catalogue number of a coil's address, 160 to 255; else JEULGOPAE_OUT_OF_RANGE.
 *
 *   jeulgopae_coil_number(208) is 209 */
int32_t jeulgopae_coil_number(uint32_t address);

/* ---- two registers as one signed number ---- */

/* The number that two words hold, the lower 16 bits in the lower register: every pair is a number from -2,147,483,648 to
 * 2,147,483,647. Nothing is refused.
 *
 *   jeulgopae_pair_value(0x7EF0, 0x000E) is 950000, of 0xFFFF and 0xFFFF it is -1, of 0x0000 and 0x8000 -2147483648 */
int32_t jeulgopae_pair_value(uint16_t low, uint16_t high);

/* The lower and the higher word of a number from -950,000 to 950,000, 0 to 65,535 each; else JEULGOPAE_NO_REQUEST.
 *
 *   jeulgopae_pair_low(-950000) is 0x8110 and jeulgopae_pair_high(-950000) 0xFFF1; of 950001 both are JEULGOPAE_NO_REQUEST */
int32_t jeulgopae_pair_low(int32_t value);
int32_t jeulgopae_pair_high(int32_t value);

/* ---- catalogue files ---- */

/* Fills the attributes of a table from a catalogue file: those of the group that has the name and of every group around it, and
 * JEULGOPAE_HOLE elsewhere. The name is compared byte for byte, blanks at its end included. What the attributes hold before is not
 * looked at; afterwards each is 0 to 3, so no station gives JEULGOPAE_BAD_TABLE for them. Back comes 0; or a refusal, and the
 * attributes are as they were: JEULGOPAE_BAD_TABLE for more attributes than a table has words, and then, in this order and each over
 * the whole file before the next, JEULGOPAE_BAD_FILE, JEULGOPAE_TOO_DEEP, JEULGOPAE_RUNS_MEET, JEULGOPAE_NAME_TWICE or
 * JEULGOPAE_NO_SUCH_NAME. Any bytes may be handed over as a file: the call ends, and its stack doesn't grow with the file.
 *
 *   static const uint8_t file[] = {3, 0, 19, 1, 0, 1, 'A', 2, 0, 5, 0, 5, 0, 2, 3, 3, 0, 4, 1, 0, 1, 'B'};
 *   uint8_t attributes[8];
 *   jeulgopae_catalogue_fill(file, sizeof file, (const uint8_t *)"B", 1, attributes, 8) is 0, and attributes[5] and [6], of the run
 *   in the group A around B, are JEULGOPAE_READ_WRITE; with 6 attributes it is JEULGOPAE_RUNS_MEET, for address 6; for "B " it is
 *   JEULGOPAE_NO_SUCH_NAME */
int32_t jeulgopae_catalogue_fill(const uint8_t *file, size_t file_count, const uint8_t *name, size_t name_count, uint8_t *attributes,
                                 size_t attributes_count);

/* ---- frames compared, and their check ---- */

/* In how many bits two frames of one length, at most 256 bytes, differ: 0 to 2,048; else JEULGOPAE_BAD_LENGTHS. Nothing is changed.
 *
 *   jeulgopae_bits_differing((const uint8_t *)"F", 1, (const uint8_t *)"f", 1) is 1 */
int32_t jeulgopae_bits_differing(const uint8_t *a, size_t a_count, const uint8_t *b, size_t b_count);

/* The CRC-16 of RTU over some bytes, 0 to 65,535; on the line its low byte goes first. Nothing is changed.
 *
 *   jeulgopae_crc((const uint8_t *)"123456789", 9) is 0x4B37 */
int32_t jeulgopae_crc(const uint8_t *bytes, size_t bytes_count);

#ifdef __cplusplus
}
#endif

#endif
