/* `readme TAG SHARD`: reads a shard by README.md's example, which stands here as it does there, and prints how many records were
 * handed out and the verdict. Then it reads the same bytes one record a call, writes each record again, and prints how many bytes
 * written are those that were read. */
#include <stdio.h>
#include "melagbosun.h"

mdb_verdict read_shard(const uint8_t tag[32], FILE *in, void (*use)(const uint64_t row[MDB_ROW])) {
    uint8_t piece[4096];
    uint64_t table[90 * MDB_ROW]; /* (4096 + 200) / 48 + 1 rows, so it is never full */
    mdb_reader reader = mdb_reader_new(tag, 32);
    for (size_t n; (n = fread(piece, 1, sizeof piece, in)) > 0;) {
        mdb_read read = mdb_reader_read(&reader, piece, n, table, 90 * MDB_ROW);
        for (uint64_t i = 0; i < read.count; i++) use(table + i * MDB_ROW);
    }
    return mdb_reader_verdict(&reader); /* number 0: accepted, else the refusal and its position */
}

#include <string.h>

static uint64_t records;

static void count(const uint64_t row[MDB_ROW]) {
    if (row[0] <= MDB_FOOTER) records++;
}

/* The bytes that are the same when the records read are written again. */
static uint64_t copy_shard(const uint8_t tag[32], const uint8_t *shard, size_t length) {
    uint8_t buffer[200];
    uint64_t same = 0;
    mdb_reader reader = mdb_reader_new(tag, 32);
    mdb_writer writer = mdb_writer_new(tag, 32);
    for (mdb_step step; (step = mdb_reader_step(&reader, shard, length)).said == MDB_RECORD;) {
        mdb_written put = mdb_writer_put(&writer, mdb_offer_of(step.found), buffer, sizeof buffer);
        if (put.wrote == step.taken && memcmp(buffer, shard, step.taken) == 0) same += put.wrote;
        shard += step.taken;
        length -= step.taken;
    }
    return mdb_writer_verdict(&writer).at + mdb_writer_verdict(&writer).length == same ? same : 0;
}

int main(int argc, char **argv) {
    static uint8_t shard[65536];
    uint8_t tag[32];
    FILE *tag_file = argc == 3 ? fopen(argv[1], "rb") : NULL, *in = argc == 3 ? fopen(argv[2], "rb") : NULL;
    if (!tag_file || !in || fread(tag, 1, 32, tag_file) != 32) return 2;
    mdb_verdict verdict = read_shard(tag, in, count);
    rewind(in);
    uint64_t copied = copy_shard(tag, shard, fread(shard, 1, sizeof shard, in));
    printf("records %llu\n", (unsigned long long)records);
    printf("copied %llu\n", (unsigned long long)copied);
    if (verdict.number == 0) printf("ok %llu\n", (unsigned long long)verdict.length);
    else printf("refused %u at %llu\n", (unsigned)verdict.number, (unsigned long long)verdict.at);
    return verdict.number != 0;
}
