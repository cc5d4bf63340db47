/*
 * Feqyondil: a proved flash store, v3 banks. docs/USING.md goes from a blank board to a running
 * store; docs/SPEC.md has the format and what each call promises.
 *
 * Where it runs: on x86-64. There is no library for a microcontroller yet. It calls memcpy and
 * memset and nothing else; a call takes 3 KiB of stack at most, as measured. The flash needs erase
 * blocks of 65,536 bytes at the banks, and bytes that can be programmed again to clear further bits.
 *
 * Buffers. No function keeps a pointer, allocates, or reads or writes outside the buffers that it
 * is lent. A buffer is a pointer and a length, in bytes or, of uint32_t, in numbers; with length 0
 * the pointer is never followed and may be null. Arrays have the length that their type names and
 * must not be null. A buffer that is not const must not overlap another buffer of the same call.
 * Stored numbers are little-endian.
 *
 * Threads. No function has state of its own: calls on different buffers may run at once.
 */
#ifndef FEQYONDIL_H
#define FEQYONDIL_H

#include <stddef.h>
#include <stdint.h>

#ifdef __cplusplus
extern "C" {
#endif

/* Raised with each change of a prototype or of the state's layout: docs/CHANGES.md. */
#define FEQYONDIL_VERSION 2u

/* Sizes, in bytes. */
#define FEQYONDIL_BANK_SIZE 65536u       /* one bank of an image */
#define FEQYONDIL_BANKS_MAX 16u          /* banks of an image */
#define FEQYONDIL_PART_SIZE 131072u      /* work area for each bank */
#define FEQYONDIL_STATE_SIZE 208u        /* the state */
#define FEQYONDIL_BARREL_VALUE_MAX 512u  /* a value of the barrels' insert */
#define FEQYONDIL_RUN_LOG_MAX 4096u      /* a log of winding runs */
#define FEQYONDIL_RUN_LOG_ENTRIES_MAX 1364u /* entries of such a log */
#define FEQYONDIL_CRC32_TABLE_ENTRIES 4096u /* entries, of four bytes each */

/* Types of a variable. Every number other than 0 is taken as System. */
#define FEQYONDIL_COMMON 0u
#define FEQYONDIL_SYSTEM 1u

/* Callers of a commit. Every number other than 0 is taken as the barrel. */
#define FEQYONDIL_CLOCK 0u
#define FEQYONDIL_BARREL 1u

/*
 * Numbers of a call. All but the first refuse, and a refusal changes nothing that was lent, except
 * as feqyondil_same_settings, feqyondil_run_log_read, feqyondil_run_log_write, the calls on rates,
 * feqyondil_open, feqyondil_tally, feqyondil_lookup, feqyondil_figures, feqyondil_careful_commit,
 * feqyondil_commit and feqyondil_whole_image say. What to do after each: docs/USING.md, 'Refusals'.
 */
#define FEQYONDIL_OK 0u
#define FEQYONDIL_IMAGE_SHORT 1u   /* the image is below 65,536 bytes */
#define FEQYONDIL_IMAGE_LONG 2u    /* the image is of 1,114,112 bytes or more */
#define FEQYONDIL_WORK_SHORT 3u    /* the work area is below 131,072 bytes per bank */
#define FEQYONDIL_NO_VALID 4u      /* no bank is Valid */
#define FEQYONDIL_OUTPUT_SHORT 5u  /* the output is below 65,536 bytes; whole image: per bank */
#define FEQYONDIL_NOT_SOUND 6u     /* state and work area are not those of an opened store */
#define FEQYONDIL_NOT_VALID 7u     /* the active bank isn't Valid */
#define FEQYONDIL_FULL 8u          /* insert would bring the bank's total over 131,072 */
#define FEQYONDIL_SYSTEM_LIMIT 9u  /* live system records are over the header's limit */
#define FEQYONDIL_COMMON_LIMIT 10u /* live common records are over the header's limit */
#define FEQYONDIL_LAST_MOVE 11u    /* the bank is to move, and its generation is 4,294,967,295 */
#define FEQYONDIL_MOVED_OVER 12u   /* the bank has to move, and its live records are over its size */
#define FEQYONDIL_BANK_OVER 13u    /* a Valid bank's total is over its size */
#define FEQYONDIL_BANK_LENGTH 14u  /* a bank to compare is not 65,536 bytes */
#define FEQYONDIL_VALUE_LONG 15u   /* a value of the barrels' insert is over 512 bytes */
#define FEQYONDIL_LOG_NUMBER 16u   /* a log's number is cut off, not in its shortest form or 2^32 and more */
#define FEQYONDIL_LOG_ORDER 17u    /* a start minute is below the one before it */
#define FEQYONDIL_LOG_LENGTH 18u   /* bytes left over, no threes, a log over 4,096 bytes, an output too short */
#define FEQYONDIL_RATE_RANGE 19u   /* a rate's place, a sum, a difference or thirds out of range, or minus zero */

/* Kinds of a bank as feqyondil_partition_parse answers them; the state's kinds are below. */
#define FEQYONDIL_SLOT_SHORT 0u   /* too few bytes were lent */
#define FEQYONDIL_SLOT_EMPTY 1u
#define FEQYONDIL_SLOT_INVALID 2u
#define FEQYONDIL_SLOT_VALID 3u

/* Places in the fields that go with them. */
#define FEQYONDIL_FIELD_SIZE 0u
#define FEQYONDIL_FIELD_GENERATION 1u
#define FEQYONDIL_FIELD_STATE 2u
#define FEQYONDIL_FIELD_FLAGS 3u
#define FEQYONDIL_FIELD_SYSTEM_LIMIT 4u
#define FEQYONDIL_FIELD_COMMON_LIMIT 5u
#define FEQYONDIL_FIELD_TOTAL 6u
#define FEQYONDIL_FIELD_USABLE 7u

/*
 * The checksum.
 */

/* CRC-32 of IEEE 802.3. */
uint32_t feqyondil_crc32(const uint8_t *bytes, size_t bytes_len);

/* Fills the tables that feqyondil_crc32_with takes. */
void feqyondil_crc32_tables(uint32_t tables[4096]);

/* The same checksum, with tables made once. With other tables than those, the answer is no checksum. */
uint32_t feqyondil_crc32_with(const uint32_t tables[4096], const uint8_t *bytes, size_t bytes_len);

/*
 * Banks by themselves.
 */

/*
 * Reads the bank in the first 65,536 bytes of nvr and answers its kind, FEQYONDIL_SLOT_SHORT where
 * fewer are lent. fields gets the numbers that FEQYONDIL_FIELD_SIZE to FEQYONDIL_FIELD_USABLE name;
 * zeros unless the bank is Valid.
 */
uint32_t feqyondil_partition_parse(const uint8_t *nvr, size_t nvr_len, uint64_t fields[8]);

/*
 * The same, and the bank as it would be written to part, then 0xFF to its end; all 0xFF for a bank
 * that isn't Valid. FEQYONDIL_SLOT_SHORT where nvr or part is below 65,536 bytes; part is then left
 * as it was.
 */
uint32_t feqyondil_partition_serialize(const uint8_t *nvr, size_t nvr_len, uint8_t *part, size_t part_len,
                                       uint64_t fields[8]);

/*
 * Causes as feqyondil_bank_cause answers them. Those from FEQYONDIL_CAUSE_SIGNATURE to
 * FEQYONDIL_CAUSE_CRC make a bank Invalid; with those behind them it is Valid.
 */
#define FEQYONDIL_CAUSE_SHORT 0u     /* too few bytes were lent */
#define FEQYONDIL_CAUSE_EMPTY 1u     /* all bytes are 0xFF */
#define FEQYONDIL_CAUSE_SIGNATURE 2u
#define FEQYONDIL_CAUSE_VERSION 3u
#define FEQYONDIL_CAUSE_SIZE 4u
#define FEQYONDIL_CAUSE_NAME 5u      /* a record's name length is 0 */
#define FEQYONDIL_CAUSE_CRC 6u       /* a record's CRC is not that of its value */
#define FEQYONDIL_CAUSE_BLANK 7u     /* reading stopped at a blank ... */
#define FEQYONDIL_CAUSE_START 8u     /* ... at a wrong start number */
#define FEQYONDIL_CAUSE_LENGTH 9u    /* ... at a record over what remains of the bank */
#define FEQYONDIL_CAUSE_END 10u      /* ... at the end of size */

/* Places in the spot that goes with them. */
#define FEQYONDIL_SPOT_PLACE 0u      /* of the byte, counted from the start of the bank */
#define FEQYONDIL_SPOT_INDEX 1u      /* of the record, counted from 0 */

/*
 * Answers why reading the bank in the first 65,536 bytes of nvr stopped, FEQYONDIL_CAUSE_SHORT
 * where fewer are lent. That is the first cause met: all 0xFF, signature, version, size, then record
 * by record the end of size, a blank, the start number, the length, the name length, the CRC. A
 * fault behind it is not named.
 *
 * spot gets the place of the byte and the index of the record. The place is 0, 14 or 4 for
 * signature, version and size, where the index is 0, and 8 or 32 past the record's start for name
 * length and CRC. Zeros for the causes that don't make the bank Invalid.
 */
uint32_t feqyondil_bank_cause(const uint8_t *nvr, size_t nvr_len, uint64_t spot[2]);

/*
 * Whether two banks hold the same settings: both are Valid, their headers' named fields are equal
 * (FEQYONDIL_FIELD_SIZE to FEQYONDIL_FIELD_COMMON_LIMIT), and their records are equal, in order,
 * dead ones too. Reserved and closing bytes, what stands behind the records, and the usable size
 * that follows from it do not count. same gets 1 or 0. That is 1 just where both are Valid and would
 * be written with equal bytes.
 *
 * Refusal: 14 where one or other is not exactly 65,536 bytes; same then gets 0.
 */
uint32_t feqyondil_same_settings(const uint8_t *one, size_t one_len, const uint8_t *other, size_t other_len,
                                 uint64_t same[1]);

/*
 * The log of winding runs, a value of at most 4,096 bytes: the count of entries, then three numbers
 * for each. A number stands in groups of seven bits, lowest first, a byte each, with the top bit set
 * on all but the last (unsigned LEB128), in its shortest form, and is below 2^32. Start minutes
 * never fall; equal ones may follow each other. These calls know nothing of the store: what they
 * write is a value for an insert, what they read is the value of a lookup.
 */
#define FEQYONDIL_RUN_NUMBERS 3u  /* numbers of an entry, which stand in a row */
#define FEQYONDIL_RUN_START 0u    /* minute */
#define FEQYONDIL_RUN_SECONDS 1u  /* its length */
#define FEQYONDIL_RUN_TURNS 2u    /* of the weight */

/*
 * Reads a log: puts three numbers in a row for each entry to the front of entries, and count gets
 * how many entries there are. Numbers of entries behind them stay. entries_len counts numbers, not
 * bytes; with 4,092 there is room for any log.
 *
 * Refusals: 18 where the log is over 4,096 bytes; then, from the front, 16 for a number that is cut
 * off, not in its shortest form or 2^32 and more (so of a log of no bytes), and 17 as soon as a start
 * minute is read that is below the one before; then 18 for bytes left over, and 18 where entries is
 * too short. Each leaves entries as they were; count then gets 0.
 */
uint32_t feqyondil_run_log_read(const uint8_t *log, size_t log_len, uint32_t *entries, size_t entries_len,
                                uint64_t count[1]);

/*
 * Writes the log of entries, three numbers in a row for each, to the front of log; length gets how
 * many bytes it takes. Bytes of log behind them stay; with 4,096 there is room for any log. What
 * was written reads back as the same entries, and what was read writes back as the same bytes.
 *
 * Refusals: 18 where entries_len is no multiple of three; 17 where a start minute is below the one
 * before; 18 where the log would be over 4,096 bytes, and 18 where log is too short for it. Each
 * leaves log as it was; length then gets 0.
 */
uint32_t feqyondil_run_log_write(const uint32_t *entries, size_t entries_len, uint8_t *log, size_t log_len,
                                 uint64_t length[1]);

/*
 * Daily rates in sixtieths: a sign, and hours, minutes, seconds and thirds, of which one is 1/60
 * second. Hours are 0 to 23, the others 0 to 59, and minus zero does not exist. So a number of whole
 * thirds below 5,184,000, either way, has one rate. Every number other than 0 is taken as minus; an
 * answered sign is 0 or 1.
 *
 * Refusal of each call: 19 where a rate that it is lent has a place out of range or is minus zero, or
 * where what it is to answer has no rate. The answer is zeros then, plus zero among rates: so look at
 * the number, and do not lend one array for an answer and a rate.
 */
#define FEQYONDIL_RATE_SIGN 0u
#define FEQYONDIL_RATE_HOURS 1u
#define FEQYONDIL_RATE_MINUTES 2u
#define FEQYONDIL_RATE_SECONDS 3u
#define FEQYONDIL_RATE_THIRDS 4u
#define FEQYONDIL_RATE_NUMBERS 5u           /* numbers of a rate */
#define FEQYONDIL_RATE_THIRDS_END 5184000u  /* a rate's thirds are fewer, either way: those of 24 hours */

/* Signs of a rate. */
#define FEQYONDIL_PLUS 0u
#define FEQYONDIL_MINUS 1u

/* The sum of two rates. */
uint32_t feqyondil_rate_add(const uint32_t a[5], const uint32_t b[5], uint32_t sum[5]);

/* The first rate less the second. */
uint32_t feqyondil_rate_subtract(const uint32_t a[5], const uint32_t b[5], uint32_t difference[5]);

/* Orders as feqyondil_rate_compare answers them; 0 where it is refused. */
#define FEQYONDIL_RATE_LESS 1u
#define FEQYONDIL_RATE_EQUAL 2u
#define FEQYONDIL_RATE_GREATER 3u

/* Whether the first rate is less than the second, equal to it or greater: of two with minus, the longer is less. */
uint32_t feqyondil_rate_compare(const uint32_t a[5], const uint32_t b[5], uint64_t order[1]);

/* The whole thirds of a rate, below 0 where its sign is minus. */
uint32_t feqyondil_rate_to_thirds(const uint32_t rate[5], int64_t thirds[1]);

/* The rate of so many thirds: feqyondil_rate_to_thirds answers them again. */
uint32_t feqyondil_rate_from_thirds(int64_t thirds, uint32_t rate[5]);

/*
 * The store. A program lends a state and a work area to each call, as the call before left them.
 * They hold no pointers: between two calls they may be copied elsewhere.
 *
 * The state's first 208 bytes are numbers of four bytes: how many banks there are, which is active,
 * the two callers' tallies of erase requests, then 16 entries, one for each bank. Later bytes are
 * ignored and left. Every call but feqyondil_open refuses by 6 where fewer bytes are lent, where an
 * entry's kind is none of the three, and, feqyondil_tally apart, where state and work area are not
 * sound. Any two tallies are sound.
 *
 * The work area is 131,072 bytes for each bank. Later bytes are ignored and left.
 */
#define FEQYONDIL_STATE_BANKS 0u         /* n, the number of banks */
#define FEQYONDIL_STATE_ACTIVE 4u        /* the active one, counted from 0 */
#define FEQYONDIL_STATE_CLOCK_TALLY 8u   /* erase requests in the clock's commits, up to 4,294,967,295 */
#define FEQYONDIL_STATE_BARREL_TALLY 12u /* those in the barrel's */
#define FEQYONDIL_STATE_ENTRIES 16u      /* bank i's is FEQYONDIL_ENTRY_SIZE * i bytes behind */
#define FEQYONDIL_ENTRY_SIZE 12u

/* Places in an entry; total and usable are 0 unless the bank is Valid. */
#define FEQYONDIL_ENTRY_KIND 0u
#define FEQYONDIL_ENTRY_TOTAL 4u    /* bytes of the header and of all records, dead ones too */
#define FEQYONDIL_ENTRY_USABLE 8u   /* a commit moves the bank where its total is over this */

/* Kinds of a bank in a state's entry; feqyondil_partition_parse counts them otherwise. */
#define FEQYONDIL_KIND_EMPTY 0u
#define FEQYONDIL_KIND_INVALID 1u
#define FEQYONDIL_KIND_VALID 2u

/* The number of a state at one of these offsets, as in feqyondil_state_number(state, FEQYONDIL_STATE_ACTIVE). */
static inline uint32_t feqyondil_state_number(const uint8_t *state, size_t offset) {
    const uint8_t *four = state + offset;
    return (uint32_t)four[0] | (uint32_t)four[1] << 8 | (uint32_t)four[2] << 16 | (uint32_t)four[3] << 24;
}

/*
 * Opens an image of 1 to 16 banks of 65,536 bytes; a last part of a bank is ignored. Answers 0,
 * and fills state and work area, with both tallies 0. The active bank may still be one that isn't
 * Valid, where every Valid bank has generation 0: then edits, lookups, figures and commits are
 * refused by 7.
 *
 * Refusals: 6 where the state is below 208 bytes, and then nothing is written; 1, 2, 3, 4, in this
 * order, and then the state is all zeros in its first 208 bytes and the work area as it was.
 */
uint32_t feqyondil_open(const uint8_t *image, size_t image_len, uint8_t *state, size_t state_len, uint8_t *work,
                        size_t work_len);

/* Places in what feqyondil_tally answers. */
#define FEQYONDIL_TALLY_CLOCK 0u
#define FEQYONDIL_TALLY_BARREL 1u
#define FEQYONDIL_TALLY_TOTAL 2u

/*
 * Answers whose commits wear the flash: tally gets the number of erase requests since the opening in
 * the clock's commits, that in the barrel's, and that in all. Each stops at 4,294,967,295 by itself.
 * The total is the sum of the two, stopped there.
 *
 * Refusal: 6 where the bytes hold no state, that is where there are fewer than 208 or an entry's kind
 * is none of the three; tally then gets zeros.
 */
uint32_t feqyondil_tally(const uint8_t *state, size_t state_len, uint64_t tally[3]);

/*
 * Puts a value under a key of a type into the active bank, in place of every live one of that key
 * and type. It is in the flash only when a commit was carried out.
 *
 * A key is any bytes, without the closing byte that a record has behind it. The record takes 37
 * bytes, and the key and the value: whole records, not values, count in the header's limits.
 *
 * Refusals: 6, 7, and 8, of which each leaves state and work area as they were.
 */
uint32_t feqyondil_insert(uint8_t *state, size_t state_len, uint8_t *work, size_t work_len, const uint8_t *key,
                          size_t key_len, const uint8_t *value, size_t value_len, uint32_t type);

/*
 * The insert of the chime barrels, whose controller has 512 bytes for a value: feqyondil_insert, but
 * that a longer value is refused. A record does not say whose insert put it there: either insert
 * takes the place of the other's values, and feqyondil_remove removes both.
 *
 * Refusals: 6, 7, 15 and 8, in this order, of which each leaves state and work area as they were.
 */
uint32_t feqyondil_barrel_insert(uint8_t *state, size_t state_len, uint8_t *work, size_t work_len,
                                 const uint8_t *key, size_t key_len, const uint8_t *value, size_t value_len,
                                 uint32_t type);

/*
 * Removes every live value of a key and a type from the active bank; where there is none, nothing
 * changes. The state stays as it is.
 *
 * Refusals: 6 and 7, of which each leaves the work area as it was.
 */
uint32_t feqyondil_remove(const uint8_t *state, size_t state_len, uint8_t *work, size_t work_len,
                          const uint8_t *key, size_t key_len, uint32_t type);

/* Places in what feqyondil_lookup answers. */
#define FEQYONDIL_FOUND 0u        /* 1, or 0 where there is no such value */
#define FEQYONDIL_FOUND_PLACE 1u  /* counted from the start of the work area */
#define FEQYONDIL_FOUND_LENGTH 2u

/*
 * Looks a key and a type up in the active bank. found gets 1, the value's place counted from the
 * start of the work area, and its length; zeros where there is no such value.
 *
 * Refusals: 6 and 7; found then gets zeros.
 */
uint32_t feqyondil_lookup(const uint8_t *state, size_t state_len, const uint8_t *work, size_t work_len,
                          const uint8_t *key, size_t key_len, uint32_t type, uint64_t found[3]);

/*
 * Copies the value of a key and a type to the front of out, as far as out goes, and answers the
 * value's length, which may be more than out has. Bytes of out behind the value stay. 0, and out
 * as it was, where there is no such value or the lookup is refused; feqyondil_lookup tells these
 * from an empty value.
 */
size_t feqyondil_value(const uint8_t *state, size_t state_len, const uint8_t *work, size_t work_len,
                       const uint8_t *key, size_t key_len, uint32_t type, uint8_t *out, size_t out_len);

/* Places in what feqyondil_figures answers. */
#define FEQYONDIL_FIGURES_SYSTEM 0u /* bytes of live system records */
#define FEQYONDIL_FIGURES_COMMON 1u /* bytes of live common records */
#define FEQYONDIL_FIGURES_COUNT 2u  /* how many records there are, dead ones too */

/*
 * Answers what the active bank's records come to. figures gets the bytes of its live system
 * records, those of its live common records, and how many records there are, dead ones too. A
 * record takes 37 bytes, and its key and its value. The two sums are what a commit holds against the
 * header's limits; a record under a GUID of neither type is in neither sum, though a lookup finds it
 * as Common.
 *
 * Refusals: 6 and 7; figures then gets zeros.
 */
uint32_t feqyondil_figures(const uint8_t *state, size_t state_len, const uint8_t *work, size_t work_len,
                           uint64_t figures[3]);

/* Places in what a commit asks for. */
#define FEQYONDIL_ERASE 0u        /* 1, or 0 where no bank is to be erased */
#define FEQYONDIL_ERASE_OFFSET 1u
#define FEQYONDIL_WRITE_OFFSET 2u
#define FEQYONDIL_WRITE_LENGTH 3u /* of the front of output */

/*
 * The commit that a new board should call.
 *
 * Answers what to do to the flash so that it holds the active bank, and puts the bytes to write at
 * the front of output, which has at least 65,536; output behind them stays. Where the bank is full
 * it moves to the next one, its live values only, and that one becomes active.
 *
 * requests gets 1 and the offset of the bank to erase, all 65,536 bytes of it, or 0 and 0; then the
 * write's offset and its length in output. Erase first, then write: to the flash that was opened,
 * and nothing else. Where the erase or the write fails, open the flash again: the state takes both
 * as done.
 *
 * caller says who commits, FEQYONDIL_CLOCK or FEQYONDIL_BARREL: an erase request adds 1 to its
 * tally, which stops at 4,294,967,295. Nothing else depends on it, and the other's tally stays.
 *
 * Refusals: 6, 5, 7, 9, 10, 11, 12, in this order. Each leaves state, work area and output as they
 * were and asks for nothing: requests gets zeros. 12 is where the bank has to move, and its
 * header and live records are over its size: remove some, and commit again.
 *
 * POWER CUTS. Written from the first byte to the last, a commit that is cut off can lose what was
 * stored: of the 48 cut points of a strike count that is committed in place, 33 lose the count and
 * 15 the whole store; of the 64 of one whose bank moves, 34 lose the count. Where only the bytes
 * that differ are written, one at a time, from the last to the first, none of some 200,000 cuts that
 * `make differ` tries loses anything, with two banks or more and 0xFF behind the active bank's
 * records to begin with. That is tried, not proved. After such a cut the next commit has to move,
 * or it can bring back what was cut off: docs/USING.md, 'Power cuts', says how. With one bank, a
 * move that is cut off loses the store in any order. A commit in steps that is proved against power
 * cuts is to come with a later version.
 */
uint32_t feqyondil_careful_commit(uint8_t *state, size_t state_len, uint8_t *work, size_t work_len, uint8_t *output,
                                  size_t output_len, uint32_t caller, uint64_t requests[4]);

/*
 * The older commit, for boards that call it already. What feqyondil_careful_commit accepts it
 * accepts too, with the same bytes, the same tallies and the same power cuts; but it moves before it
 * knows whether the live records fit.
 *
 * Refusals: 6, 5, 7, 9, 10, 11, in this order; requests then gets zeros and the rest stays as it
 * was. Last 12: output stays, but state and work area have moved, the caller's tally has counted,
 * and requests has the erase, with zeros for the write. After 12, leave the flash alone and open it
 * again: carried out, that erase is of the next bank, and the next commit may ask for the erase of
 * the only good one.
 */
uint32_t feqyondil_commit(uint8_t *state, size_t state_len, uint8_t *work, size_t work_len, uint8_t *output,
                          size_t output_len, uint32_t caller, uint64_t requests[4]);

/*
 * Joins the Valid banks, each at its own size, at the front of output, which has at least 65,536
 * bytes per bank; output behind them stays. length gets how many bytes they are.
 *
 * That is no copy of the flash: banks that aren't Valid are left out, and so are the bytes behind a
 * bank's size. The bank that a move left is over its size, if that was why it moved: then this is
 * refused by 13 until the flash is opened again.
 *
 * Refusals: 6, 5 and 13, of which each leaves output as it was; length then gets 0.
 */
uint32_t feqyondil_whole_image(const uint8_t *state, size_t state_len, const uint8_t *work, size_t work_len,
                               uint8_t *output, size_t output_len, uint64_t length[1]);

#ifdef __cplusplus
}
#endif

#endif
