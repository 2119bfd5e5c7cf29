/* Shards read, written, joined and audited, stretches of their files planned, and the old blob files read and written, for C.
 * `./archive` makes the library, target/staticlib/libmelagbosun.a (x86-64); link it with
 * `cc program.c -Iinclude -Ltarget/staticlib -lmelagbosun`.
 *
 * No call keeps, allocates or frees anything. A host keeps a reader or a writer, one struct without pointers in it, and lends it by
 * its address; the call changes it in place. To copy the struct is to copy the reader. A lent slice is a pointer and a length; an
 * empty one may have any pointer but NULL. Of what is lent to one call, a thing that is written, be it a struct or a slice, overlaps
 * no other.
 *
 * Each function is proved to answer, for every state and all bytes, what crates/host/specs says, by way of the specs of
 * reader, writer, finder, join, plan, audit and blobs. A state that was not given out by these functions still gets an answer and
 * touches nothing but what is lent; only one that stands at the end is told as accepted.
 */
#ifndef MELAGBOSUN_H
#define MELAGBOSUN_H

#include <stddef.h>
#include <stdint.h>

#ifdef __cplusplus
extern "C" {
#endif

/* Why a shard, a tag, an offer, a join, a plan, an audit or a blob file's entry was refused. Unless another is named, the position
 * is that where the record starts, or the entry. */
enum mdb_refusal {
    MDB_ENDS_EARLY = 1,      /* the input ends inside or before a record still due */
    MDB_TAG_LENGTH = 2,      /* the tag is not 32 bytes; position 0 */
    MDB_TAG = 3,             /* header: another tag */
    MDB_VERSION = 4,         /* header: the version is not 2 */
    MDB_FOOTER_SIZE = 5,     /* header: the footer size is neither 0 nor 200 */
    MDB_LIMIT = 6,           /* a head declares more than 16777216 bytes hold; join: the result would be longer, position 0 */
    MDB_RESERVED = 7,        /* a reserved byte or an unnamed flag bit is not 0 */
    MDB_ALL_ONES = 8,        /* a hash of all ones at a head, with a tail that is not zero; writer: any such hash offered in a head */
    MDB_BIT_31 = 9,          /* bit 31 of a file's flags differs from the first file's; join: from those of the other shard's files,
                                position 0 */
    MDB_SEGMENT = 10,        /* a segment's chunk start is not below its chunk end */
    MDB_CHUNK_SUM = 11,      /* chunks do not follow each other, or do not sum to the head's bytes in xorb */
    MDB_FOOTER_VERSION = 12, /* footer: the version is not 1 */
    MDB_OFFSET = 13,         /* footer: one of the three offsets is wrong */
    MDB_AFTER_END = 14,      /* a byte follows the end; position of that byte */
    MDB_BUFFER = 15,         /* writer: the buffer is shorter than the record; join: the buffer is shorter than the result,
                                position 0; plan: the table has fewer rows than are needed, position 0; writing an entry: the
                                buffer is shorter than its 110 bytes and the data, position 0 */
    MDB_NOT_DUE = 16,        /* writer: this kind of record is not due now, or there is no such kind */
    MDB_NO_FILE = 17,        /* plan: the shard has no file of that number; position 0 */
    MDB_RANGE = 18,          /* plan: a is not below b, or b is past the file's end; position 0 */
    MDB_FALSE_SEGMENT = 22,  /* audit: a segment is false of the xorb that it names, which the shard lists */
    MDB_BLOB_SHORT = 24,     /* entry: fewer than 110 bytes are left at its position */
    MDB_BLOB_MAGIC = 25,     /* entry: it does not begin with "MSHB" */
    MDB_BLOB_VERSION = 26,   /* entry: the version is not 1 */
    MDB_BLOB_HEX = 27,       /* entry: one of the hash's 64 characters is no hex digit; writing an entry: the hash is not 64 such
                                digits, position 0 */
    MDB_BLOB_RESERVED = 28,  /* entry: one of the 32 reserved bytes is not 0 */
    MDB_BLOB_DATA = 29,      /* entry: its data end past the buffer's end */
    MDB_HAS_FOOTER = 30,     /* join: one of the shards has a footer; position 0 */
    MDB_STATE = 255          /* reader, writer: a state that no call gave out, as one that was never begun; the state's own
                                position */
};

/* The kinds of record, in the order of the paper's table. */
enum mdb_kind {
    MDB_HEADER, MDB_FILE_HEAD, MDB_SEGMENT_ROW, MDB_VERIFICATION, MDB_METADATA, MDB_XORB_HEAD, MDB_CHUNK, MDB_BOOKEND, MDB_FOOTER
};

/* What a call of the reader says. */
enum mdb_said { MDB_NOTHING, MDB_RECORD, MDB_REFUSED };

typedef struct {
    uint64_t files, segments, xorbs, chunks;
    uint64_t bytes; /* the sum of all segments' unpacked bytes */
} mdb_totals;

typedef struct {
    uint64_t sum, total; /* of a chunk: the bytes before it, and the head's bytes in xorb */
    uint32_t code; /* its row in the paper's table, from 1: 1 header, 2 file head, 3 segment, 4 verification, 5 metadata, 6 xorb
                      head, 7 chunk, 9 footer; 10 the end, 11 refused. Any other code, and 11 with 0 left, is MDB_STATE */
    uint32_t left; /* the records of this kind that are left; of a refusal its number */
} mdb_due;

typedef struct {
    uint64_t at;     /* where the record due starts */
    uint64_t offset; /* the byte after the first bookend, 0 before it */
    mdb_totals totals;
    mdb_due due;
    uint32_t flags, entries; /* those of the last file head */
    uint32_t footer;         /* 1 if the header announces a footer, else 0 */
    uint32_t have;           /* of a reader: how many bytes its carry has; of a writer: 0 */
} mdb_place;

/* A reader between two calls. It is for its host to keep and to lend, not to change. */
typedef struct {
    uint64_t tag[4];
    mdb_place place;
    uint8_t carry[200]; /* the bytes so far of the record due, place.have of them, then zeros; all are zero after a whole record */
} mdb_reader;

/* A writer between two calls. */
typedef struct {
    uint64_t tag[4];
    mdb_place place;
} mdb_writer;

typedef struct {
    uint64_t hash[4]; /* of a footer its key */
    uint64_t at;      /* where the record starts */
    uint64_t offset;  /* of a footer the xorb offset, else 0 */
    uint32_t kind;    /* enum mdb_kind */
    uint32_t a, b, c, d; /* the numbers behind the hash; of a footer created (a low, b high) and expiry (c low, d high) */
} mdb_record;

typedef struct {
    uint64_t length;   /* of an accepted shard; 0 if refused, and so are totals and footer */
    mdb_totals totals;
    uint64_t at;       /* position of the refusal */
    uint32_t number;   /* enum mdb_refusal; 0: accepted */
    uint32_t footer;   /* 1 if there is a footer */
} mdb_verdict;

typedef struct {
    mdb_record found; /* all zeros unless said is MDB_RECORD */
    uint64_t taken;   /* bytes taken of the piece: offer the rest again */
    uint64_t at;      /* position of the refusal, else 0 */
    uint32_t said;    /* enum mdb_said */
    uint32_t number;  /* enum mdb_refusal, else 0 */
} mdb_step;

typedef struct {
    uint64_t taken;  /* bytes taken of the piece */
    uint64_t count;  /* rows filled, from the table's start */
    uint64_t at;     /* position of the refusal, else 0 */
    uint32_t said;   /* MDB_NOTHING: the piece is used up; MDB_RECORD: the table is full, offer the rest again; MDB_REFUSED */
    uint32_t number; /* enum mdb_refusal, else 0 */
} mdb_read;

typedef struct {
    uint64_t numbers[4];
} mdb_hash;

/* What finding gives. said: 0 absent, 1 found, 2 refused; at: the position of what was found, or of the refusal. */
typedef struct {
    uint64_t at;
    uint32_t said, number;
    uint32_t block, index; /* xorb block number and chunk index in it, from 0 */
} mdb_found_chunk;

typedef struct {
    uint64_t at;
    uint32_t said, number;
    uint32_t file; /* file number, from 0 */
} mdb_found_file;

/* What is offered to a writer, which makes tag, versions, reserved bytes, bookends and footer offsets itself.
 *   header        x footer size, 0 or 200
 *   file head     hash, a flags, b entries
 *   segment       hash, a flags, b unpacked bytes, c chunk start, d chunk end
 *   verification  hash
 *   metadata      hash
 *   xorb head     hash, a flags, b entries, c bytes in xorb, d bytes on disk
 *   chunk         hash, a byte start, b unpacked bytes
 *   bookend       (the end of a section)
 *   footer        hash (the key), x created, y expiry
 * What is not named here is not looked at. */
typedef struct {
    uint64_t hash[4];
    uint64_t x, y;
    uint32_t kind; /* enum mdb_kind */
    uint32_t a, b, c, d;
} mdb_offer;

typedef struct {
    uint64_t wrote;  /* bytes written at the start of the buffer; 0: refused, and no byte changed */
    uint64_t at;     /* position of the refusal, else 0 */
    uint32_t number; /* enum mdb_refusal, else 0 */
} mdb_written;

typedef struct {
    uint64_t wrote;  /* bytes written at the start of the buffer; 0: refused, and no byte changed */
    uint64_t at;     /* position of the refusal, else 0 */
    uint32_t number; /* enum mdb_refusal, else 0 */
} mdb_joined;

/* A piece to fetch: the chunks of a xorb from `start` up to but not including `end`. Of their bytes, unpacked, `skip` are passed
 * over and the next `take` are wanted. */
typedef struct {
    uint64_t xorb[4];
    uint32_t start, end;
    uint32_t skip, take;
} mdb_fetch_row;

typedef struct {
    uint64_t rows;   /* rows filled at the start of the table; 0: refused, and no row changed */
    uint64_t at;     /* position of the refusal, else 0 */
    uint32_t number; /* enum mdb_refusal, else 0 */
} mdb_planned;

typedef struct {
    uint64_t listed;   /* segments that name a xorb which the shard lists; 0 if refused */
    uint64_t unlisted; /* segments that name another; 0 if refused */
    uint64_t at;       /* position of the refusal, else 0 */
    uint32_t number;   /* enum mdb_refusal, else 0 */
} mdb_audited;

/* What is at a position of a blob file. Number 0 is an entry: the 64 digits of its hash stand at `digits`, its data, `length` bytes
 * of them, at `data`, and behind these, at `next`, is the place of the next entry. Else the refusal, and zeros for these. */
typedef struct {
    uint64_t digits, data, length, next;
    uint64_t at;
    uint32_t number;
} mdb_blob_entry;

/* What writing an entry came to. Number 0 is done; else `wrote` is 0 and the buffer is untouched. */
typedef struct {
    uint64_t wrote;
    uint64_t at;
    uint32_t number;
} mdb_blob_put;

/* What a scan came to. Number 0 is a good file: so many entries, and the sum of their data lengths. Else the refusal, and zeros. */
typedef struct {
    uint64_t entries, bytes;
    uint64_t at;
    uint32_t number;
} mdb_blob_scanned;

/* The verdict on a whole shard. */
mdb_verdict mdb_judge(const uint8_t *tag, size_t tag_length, const uint8_t *shard, size_t length);

/* The first chunk, and the first file, with that hash. A refused shard gives its refusal. */
mdb_found_chunk mdb_find_chunk(const uint8_t *tag, size_t tag_length, const uint8_t *shard, size_t shard_length, mdb_hash hash);
mdb_found_file mdb_find_file(const uint8_t *tag, size_t tag_length, const uint8_t *shard, size_t shard_length, mdb_hash hash);

/* One shard of two without footer: the first one's files, then the second's, and the same for xorbs, duplicates kept. It is
 * as long as both together less 144 bytes; no byte of the buffer behind it changes. Refused in this order: the first shard's
 * refusal, the second's, 30, 9, 6, 15. The two shards may be the same bytes. To join more, join the next one to the result: in
 * whatever grouping, those of one order give the same bytes, and a shard of 144 bytes changes nothing. */
mdb_joined mdb_join(const uint8_t *tag, size_t tag_length, const uint8_t *first, size_t first_length,
                    const uint8_t *second, size_t second_length, uint8_t *buffer, size_t buffer_length);

/* What to fetch for the bytes of a file from `a` up to but not including `b`: a row for each segment that shares at least one
 * byte with this range, in file order. What is taken for the rows, one after the other, is the stretch asked for. `file` counts
 * from 0; `length` counts the table's rows, and as many as the file has segments are always enough. No row behind those filled
 * changes. Refused in this order: the shard's refusal, 17, 18, 15. */
mdb_planned mdb_plan(const uint8_t *tag, size_t tag_length, const uint8_t *shard, size_t shard_length, uint32_t file, uint64_t a,
                     uint64_t b, mdb_fetch_row *table, size_t length);

/* The segments of a shard against the xorbs that it lists. A segment is listed if it names one of them, else unlisted. A listed one
 * is true if its chunk end does not pass the xorb's chunk count and its unpacked bytes are the sum of its chunks' lengths, else
 * false; of several blocks with the xorb's hash the first is taken. The answer is how many segments are listed and how many are
 * unlisted, if none is false. Refused in this order: the shard's refusal, 22 at the first false segment. Whether mdb_judge accepts
 * the shard does not depend on it. A shard has no table of its xorbs, so the heads of the xorb blocks are gone through for each
 * segment: at worst, the time grows with the number of segments times the number of blocks. On an Arm machine, compiled by an older
 * kit, a full shard of 1,000 xorbs and 100,000 listed segments took 0.4 s, and the worst, as many empty xorbs as unlisted segments
 * up to the limit, 2 minutes. */
mdb_audited mdb_audit(const uint8_t *tag, size_t tag_length, const uint8_t *shard, size_t shard_length);

/* The entry of a blob file at a position, any position. An entry is 110 bytes and its data: "MSHB", a version of 16 bits that is 1,
 * the data length in 64 bits, the 64 hex digits of a hash, of either case, and 32 zero bytes; then the data. Refused in this order,
 * at the position asked for: 24, 25, 26, 27, 28, 29. At the buffer's end and past it that is 24. */
mdb_blob_entry mdb_blob_entry_at(const uint8_t *buffer, size_t length, uint64_t at);

/* An entry, at the start of the buffer: 110 bytes and the data. Only these change. Digits are kept as they are given. Refused in
 * this order: 27, 15. */
mdb_blob_put mdb_blob_put_entry(const uint8_t *digits, size_t digits_length, const uint8_t *data, size_t data_length,
                                uint8_t *buffer, size_t buffer_length);

/* All entries of a blob file, from position 0 on. The end is no fault, and an empty file is good with no entries. Refused with the
 * first refusal of an entry. */
mdb_blob_scanned mdb_blob_scan(const uint8_t *buffer, size_t length);

/* A fresh reader. A tag that is not 32 bytes gives one that has refused with 2. */
mdb_reader mdb_reader_new(const uint8_t *tag, size_t length);

/* One call: it takes the smaller of the piece's length and the bytes missing from the record due, and hands out at most one
 * record. After a refusal every call takes nothing and repeats it. */
mdb_step mdb_reader_step(mdb_reader *reader, const uint8_t *piece, size_t length);

/* A whole piece: calls of mdb_reader_step until it is used up or refused or the table is full. Each record found fills a row of
 * MDB_ROW numbers: kind, at, offset, hash[0] to hash[3], a + 2^32 b, c + 2^32 d. No other number of the table changes. `length`
 * and `numbers` count the piece's bytes and the table's numbers. A table shorter than a row is full from the start: nothing is taken,
 * and nothing is refused but by a reader that has refused before. With (length + 200) / 48 + 1 rows the table is never full. */
enum { MDB_ROW = 9 };
mdb_read mdb_reader_read(mdb_reader *reader, const uint8_t *piece, size_t length, uint64_t *table, size_t numbers);

/* The refusal if there was one, the counts after the end, else 1 at the record due. Asking changes nothing. */
mdb_verdict mdb_reader_verdict(const mdb_reader *reader);

/* A fresh writer. A tag that is not 32 bytes gives one that answers 2 to everything. */
mdb_writer mdb_writer_new(const uint8_t *tag, size_t length);

/* One record, at the start of the buffer. Only the record's own bytes change. A refusal leaves the writer where it stands. */
mdb_written mdb_writer_put(mdb_writer *writer, mdb_offer offer, uint8_t *buffer, size_t length);

/* The reader's verdict where the writer stands. */
mdb_verdict mdb_writer_verdict(const mdb_writer *writer);

/* The offer that makes a writer write a record that was read: hash, kind, a, b, c and d as they are; x is c + 2^32 d of a header and
 * a + 2^32 b of any other, y is c + 2^32 d. */
mdb_offer mdb_offer_of(mdb_record record);

#ifdef __cplusplus
}
#endif

#endif
