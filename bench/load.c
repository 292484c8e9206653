/* The writes and syncs of `load N`, by a plain program.
 *
 * usage: load HOME N
 *
 * It makes HOME/journal and HOME/records with the same bytes as the command `load N` leaves in a new home, by the same writes and
 * syncs in the same order: each entry of the journal by two writes and two syncs, each call of the lane by those of its folder. It
 * reads, decides and checks nothing. `load.py` compares the bytes and the times. The bytes are those of docs/JOURNAL.md,
 * docs/ENTRIES.md and docs/DEVICES.md.
 */
#define _GNU_SOURCE
#include <fcntl.h>
#include <stdint.h>
#include <stdio.h>
#include <stdlib.h>
#include <string.h>
#include <sys/stat.h>
#include <unistd.h>

#define MOST 500

/* Bytes that grow. */
struct bytes {
    unsigned char *at;
    size_t length, room;
};

static void fail(const char *what)
{
    perror(what);
    exit(1);
}

static void put(struct bytes *to, const void *from, size_t length)
{
    if (to->length + length > to->room) {
        to->room = 2 * (to->length + length);
        to->at = realloc(to->at, to->room);
        if (!to->at)
            fail("memory");
    }
    memcpy(to->at + to->length, from, length);
    to->length += length;
}

static void put_number(struct bytes *to, uint64_t number, int count)
{
    unsigned char spelled[8];
    for (int k = 0; k < count; k++)
        spelled[k] = number >> 8 * (count - 1 - k);
    put(to, spelled, count);
}

static void put_bytes(struct bytes *to, const char *from, size_t length)
{
    put_number(to, length, 4);
    put(to, from, length);
}

static void put_text(struct bytes *to, const char *text)
{
    put_bytes(to, text, strlen(text));
}

/* A name and a text as its value. */
static void put_pair(struct bytes *to, const char *name, const char *value)
{
    put_text(to, name);
    put_number(to, 1, 1);
    put_text(to, value);
}

/* A name and a whole number as its value. */
static void put_whole(struct bytes *to, const char *name, uint64_t value)
{
    put_text(to, name);
    put_number(to, 2, 1);
    put_number(to, value, 8);
}

/* ---- Files ---- */

static void write_at(int file, const void *from, size_t length, off_t at)
{
    if (pwrite(file, from, length, at) != (ssize_t)length)
        fail("write");
}

static void sync_file(int file)
{
    if (fsync(file))
        fail("sync");
}

static void sync_data(int file)
{
    if (fdatasync(file))
        fail("sync");
}

static void sync_folder(const char *path)
{
    int folder = open(path, O_RDONLY);
    if (folder < 0)
        fail(path);
    sync_file(folder);
    close(folder);
}

/* ---- The journal ---- */

static int journal;

/* Where the last gate of the journal is. */
static off_t gate = 9;

static void make_journal(const char *home)
{
    char path[4096];
    snprintf(path, sizeof path, "%s/journal", home);
    journal = open(path, O_RDWR | O_CREAT, 0666);
    if (journal < 0)
        fail(path);
    sync_folder(home);
    sync_file(journal);
    write_at(journal, "\0", 1, 0);
    sync_data(journal);
    write_at(journal, "CFSTACK1\0", 9, 1);
    sync_data(journal);
    write_at(journal, "\1", 1, 0);
    sync_data(journal);
}

static void append(const struct bytes *entry)
{
    static struct bytes frame;
    frame.length = 0;
    put_number(&frame, entry->length, 4);
    put(&frame, entry->at, entry->length);
    put_number(&frame, 0, 1);
    write_at(journal, frame.at, frame.length, gate + 1);
    sync_data(journal);
    write_at(journal, "\1", 1, gate);
    sync_data(journal);
    gate += frame.length;
}

/* ---- The template, by the text of the load mode ---- */

/* The value of each resource and its length, which the next ones name. */
static char values[MOST + 1][64];

static void evaluate(int count)
{
    strcpy(values[1], "v1");
    for (int i = 2; i <= count; i++)
        snprintf(values[i], sizeof values[i], "v%d of %zu", i, strlen(values[i / 2]));
}

static void put_template(struct bytes *to, int count)
{
    char part[256];
    snprintf(part, sizeof part, "{\"Outputs\":{\"Last\":{\"Value\":{\"Fn::GetAtt\":[\"R%04d\",\"Length\"]}}},\"Resources\":{", count);
    put(to, part, strlen(part));
    for (int i = 1; i <= count; i++) {
        char value[64] = "\"v1\"";
        if (i > 1)
            snprintf(value, sizeof value, "{\"Fn::Sub\":\"v%d of ${R%04d.Length}\"}", i, i / 2);
        snprintf(part, sizeof part, "%s\"R%04d\":{\"Properties\":{\"Key\":\"k%d\",\"Value\":%s},\"Type\":\"Local::Records::Record\"}",
                 i > 1 ? "," : "", i, i, value);
        put(to, part, strlen(part));
    }
    put(to, "}}", 2);
}

/* ---- The entries ---- */

static void put_opened(struct bytes *entry)
{
    static const char *const lanes[][2] = {{"files1", "Local::Files::File"}, {"files2", "Local::Files::File"},
                                           {"records1", "Local::Records::Record"}, {"records2", "Local::Records::Record"}};
    put_number(entry, 1, 1);
    put_number(entry, 1, 8);
    put_number(entry, 4, 4);
    for (int k = 0; k < 4; k++) {
        put_text(entry, lanes[k][0]);
        put_text(entry, lanes[k][1]);
    }
}

static void put_begin(struct bytes *entry, const char *name, const struct bytes *template)
{
    put_number(entry, 2, 1);
    put_number(entry, 1, 8);
    put_text(entry, name);
    put_number(entry, 1, 1);
    put_number(entry, 1, 1);
    put_text(entry, name);
    put_number(entry, 1, 4);
    put_text(entry, name);
    put_bytes(entry, (const char *)template->at, template->length);
    put_number(entry, 0, 4);
    put_number(entry, 0, 4);
    put_number(entry, 0, 4);
}

static void put_properties(struct bytes *to, const char *key, const char *value)
{
    put_number(to, 2, 4);
    put_pair(to, "Key", key);
    put_pair(to, "Value", value);
}

static void put_attributes(struct bytes *to, const char *id, const char *key, const char *value)
{
    put_number(to, 4, 4);
    put_pair(to, "Id", id);
    put_pair(to, "Key", key);
    put_whole(to, "Length", strlen(value));
    put_pair(to, "Value", value);
}

static void put_intent(struct bytes *entry, int operation, int token, const char *path, const char *key, const char *value)
{
    put_number(entry, 4, 1);
    put_number(entry, operation, 8);
    put_number(entry, token, 8);
    put_text(entry, "records1");
    put_text(entry, path);
    put_number(entry, 1, 1);
    put_text(entry, "Local::Records::Record");
    put_properties(entry, key, value);
}

static void put_outcome(struct bytes *entry, int operation, int token, const char *id, const char *key, const char *value)
{
    put_number(entry, 5, 1);
    put_number(entry, operation, 8);
    put_number(entry, token, 8);
    put_number(entry, 1, 1);
    put_text(entry, id);
    put_attributes(entry, id, key, value);
    put_number(entry, 0, 8);
    put_number(entry, 0, 8);
}

static void put_done(struct bytes *entry)
{
    put_number(entry, 7, 1);
    put_number(entry, 1, 8);
    put_number(entry, 2, 1);
    put_number(entry, 0, 4);
}

/* ---- The lanes' tables ---- */

/* A table of tokens, where its last row is, and its last gate. */
struct table {
    int file;
    off_t last;
    off_t gate;
};

/* Each call first writes the gate of the last row again. */
static void write_last_again(const struct table *table)
{
    if (table->gate > 0)
        write_at(table->file, "\2", 1, table->last);
}

static void put_row(struct table *table, const struct bytes *first, const struct bytes *second)
{
    static struct bytes row;
    row.length = 0;
    put_number(&row, 4 + first->length + second->length, 4);
    put_bytes(&row, (const char *)first->at, first->length);
    put(&row, second->at, second->length);
    put_number(&row, 0, 1);
    write_at(table->file, row.at, row.length, table->gate + 1);
    sync_file(table->file);
    write_at(table->file, "\2", 1, table->gate);
    sync_file(table->file);
    table->last = table->gate;
    table->gate += row.length;
}

/* The first call on a lane: its folder and its table are made, and their names synced; the table is synced when it was read; and its
 * fence is raised. */
static void enter_lane(struct table *table, const char *home, const char *folder, const char *name, const char *lane, const char *type)
{
    char path[4096];
    snprintf(path, sizeof path, "%s/%s", home, folder);
    mkdir(path, 0777);
    snprintf(path, sizeof path, "%s/%s/%s", home, folder, name);
    table->file = open(path, O_RDWR | O_CREAT, 0666);
    if (table->file < 0)
        fail(path);
    snprintf(path, sizeof path, "%s/%s", home, folder);
    sync_folder(path);
    sync_folder(home);
    write_last_again(table);
    sync_file(table->file);
    struct bytes opened = {0}, none = {0};
    put_number(&opened, 1, 1);
    put_number(&opened, 1, 8);
    put_number(&opened, 1, 4);
    put_text(&opened, lane);
    put_text(&opened, type);
    put_row(table, &opened, &none);
    free(opened.at);
}

/* ---- The run ---- */

/* The call that makes a record: its intent, the row of the table, its outcome. */
static void make_record(struct table *table, int number)
{
    static struct bytes intent, outcome, asked, answered;
    char path[16], key[16], id[32];
    snprintf(key, sizeof key, "k%d", number);
    snprintf(id, sizeof id, "records1:%d", number);
    snprintf(path, sizeof path, "R%04d", number);
    intent.length = outcome.length = asked.length = answered.length = 0;
    put_intent(&intent, 1, number, path, key, values[number]);
    put_outcome(&outcome, 1, number, id, key, values[number]);
    put_intent(&asked, 0, number, "", key, values[number]);
    put_outcome(&answered, 0, number, id, key, values[number]);
    append(&intent);
    write_last_again(table);
    put_row(table, &asked, &answered);
    append(&outcome);
}

int main(int argc, char **argv)
{
    int count = argc == 3 ? atoi(argv[2]) : 0;
    if (count < 1 || count > MOST) {
        fprintf(stderr, "usage: load HOME N\n");
        return 1;
    }
    const char *home = argv[1];
    char name[16];
    snprintf(name, sizeof name, "load-%d", count);
    struct bytes text = {0}, entry = {0};
    struct table files = {0}, records = {0};
    evaluate(count);
    put_template(&text, count);
    make_journal(home);
    put_opened(&entry);
    append(&entry);
    enter_lane(&files, home, "files", ".rows", "files1", "Local::Files::File");
    enter_lane(&files, home, "files", ".rows", "files2", "Local::Files::File");
    enter_lane(&records, home, "records", "rows", "records1", "Local::Records::Record");
    enter_lane(&records, home, "records", "rows", "records2", "Local::Records::Record");
    entry.length = 0;
    put_begin(&entry, name, &text);
    append(&entry);
    for (int number = 1; number <= count; number++)
        make_record(&records, number);
    entry.length = 0;
    put_done(&entry);
    append(&entry);
    return 0;
}
