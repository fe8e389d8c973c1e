/*
 * Tests of the C entry.
 *
 *   test SESSIONS                  every example session of that folder, and every refusal
 *   test SESSIONS damaged SEED N   N damaged files, made from the example sessions and the seed
 *
 * The file and the listing handed to the rig each end where a page begins that may not be touched,
 * or begin where one ends: a sanitizer does not see into the library, but a read or a write outside
 * of its memory ends the test. The last line is 'N passed, M failed'.
 */
#define _DEFAULT_SOURCE /* mmap's MAP_ANONYMOUS */
#include "rig.h"

#include <dirent.h>
#include <stdio.h>
#include <stdlib.h>
#include <string.h>
#include <sys/mman.h>
#include <unistd.h>

#define FILE_BYTES 70000 /* room for files that are too long */
#define FILE_LIMIT 65535
#define BODIES 512
#define SESSIONS 64

static unsigned passed, failed;

static void expect(const char *name, int holds)
{
    if (holds) {
        passed++;
    } else {
        failed++;
        printf("failed: %s\n", name);
    }
}

static void give_up(const char *what)
{
    perror(what);
    exit(1);
}

/* A session file, or text. */
struct bytes {
    uint8_t at[FILE_BYTES];
    size_t length;
};

/* ---- Memory between two pages that may not be touched ---- */

struct guarded {
    uint8_t *pages; /* the first page that may be touched */
    size_t room;    /* the bytes of these pages */
};

static struct guarded guarded_new(size_t least)
{
    size_t page = (size_t)sysconf(_SC_PAGESIZE);
    size_t room = (least + page - 1) / page * page;
    uint8_t *all = mmap(NULL, room + 2 * page, PROT_NONE, MAP_PRIVATE | MAP_ANONYMOUS, -1, 0);
    if (all == MAP_FAILED || mprotect(all + page, room, PROT_READ | PROT_WRITE) != 0)
        give_up("guarded memory");
    return (struct guarded){all + page, room};
}

/* Memory of this length that ends at the guard behind it, or begins at the one before it. */
static uint8_t *guarded_place(const struct guarded *memory, size_t length, int at_end)
{
    return at_end ? memory->pages + memory->room - length : memory->pages;
}

static struct guarded file_memory, listing_memory;

/* ---- One call, with the memory around it looked at ---- */

/* What stands in the listing before a call: no run of one byte, so that a shifted write shows. */
static uint8_t pattern(size_t place)
{
    return (uint8_t)(place * 151 + 43);
}

static void fill_pattern(uint8_t *at, size_t length)
{
    for (size_t i = 0; i < length; i++)
        at[i] = pattern(i);
}

static int has_pattern(const uint8_t *at, size_t from, size_t to)
{
    for (size_t i = from; i < to; i++)
        if (at[i] != pattern(i))
            return 0;
    return 1;
}

struct played {
    uint32_t answer;
    const uint8_t *listing; /* stays until the next play */
    int file_as_it_was;
    int rest_as_it_was; /* the bytes behind the listing; all bytes, for a refusal */
};

static struct played play_at(const struct bytes *file, size_t listing_length, int at_end)
{
    uint8_t *in = guarded_place(&file_memory, file->length, at_end);
    uint8_t *out = guarded_place(&listing_memory, listing_length, at_end);
    memcpy(in, file->at, file->length);
    fill_pattern(out, listing_length);
    struct played played = {0};
    played.answer = rig_session(in, file->length, out, listing_length);
    played.listing = out;
    played.file_as_it_was = memcmp(in, file->at, file->length) == 0;
    size_t written = played.answer >= RIG_REFUSED ? 0 : played.answer;
    played.rest_as_it_was = written <= listing_length && has_pattern(out, written, listing_length);
    return played;
}

static int clean(const struct played *played)
{
    return played->file_as_it_was && played->rest_as_it_was;
}

/* The file is refused by this number, and nothing is altered. */
static void expect_refused(const char *name, const struct bytes *file, size_t listing_length, uint32_t number)
{
    for (int at_end = 0; at_end < 2; at_end++) {
        struct played played = play_at(file, listing_length, at_end);
        expect(name, played.answer == RIG_REFUSED + number && clean(&played));
    }
}

static int gives(const struct played *played, const uint8_t *wanted, size_t length)
{
    return played->answer == length && memcmp(played->listing, wanted, length) == 0 && clean(played);
}

/* The file has this listing, and nothing else is altered. */
static void expect_listing(const char *name, const struct bytes *file, const uint8_t *wanted, size_t length)
{
    for (int at_end = 0; at_end < 2; at_end++) {
        struct played played = play_at(file, RIG_LISTING_BYTES, at_end);
        expect(name, gives(&played, wanted, length));
    }
}

/* ---- Making session files ---- */

static void put_16(struct bytes *file, size_t place, size_t value)
{
    file->at[place] = (uint8_t)(value & 255);
    file->at[place + 1] = (uint8_t)(value >> 8);
}

/* Packs text, one body a line, into a session file. */
static void pack(struct bytes *file, const uint8_t *text, size_t text_length)
{
    size_t count = 0;
    for (size_t i = 0; i < text_length; i++)
        count += text[i] == '\n' || i + 1 == text_length;
    size_t entry = 2, place = 2 + 4 * count;
    put_16(file, 0, count);
    for (size_t start = 0; start < text_length;) {
        const uint8_t *feed = memchr(text + start, '\n', text_length - start);
        size_t end = feed ? (size_t)(feed - text) : text_length;
        put_16(file, entry, place);
        put_16(file, entry + 2, end - start);
        memcpy(file->at + place, text + start, end - start);
        entry += 4;
        place += end - start;
        start = end + 1;
    }
    file->length = place;
}

static void pack_string(struct bytes *file, const char *text)
{
    pack(file, (const uint8_t *)text, strlen(text));
}

static void read_bytes(struct bytes *into, const char *name)
{
    FILE *in = fopen(name, "rb");
    if (in == NULL)
        give_up(name);
    into->length = fread(into->at, 1, sizeof into->at, in);
    if (ferror(in))
        give_up(name);
    fclose(in);
}

/* The example sessions, packed, with their listings. */
static struct bytes sessions[SESSIONS], listings[SESSIONS];
static char session_names[SESSIONS][64];
static size_t session_count;

static void read_sessions(const char *folder)
{
    DIR *all = opendir(folder);
    if (all == NULL)
        give_up(folder);
    for (struct dirent *one; (one = readdir(all)) != NULL && session_count < SESSIONS;) {
        char *dot = strrchr(one->d_name, '.');
        if (dot == NULL || strcmp(dot, ".txt") != 0 || strlen(one->d_name) >= sizeof session_names[0])
            continue;
        *dot = 0;
        char path[4096];
        static struct bytes text;
        snprintf(path, sizeof path, "%s/%s.txt", folder, one->d_name);
        read_bytes(&text, path);
        pack(&sessions[session_count], text.at, text.length);
        snprintf(path, sizeof path, "%s/%s.listing", folder, one->d_name);
        read_bytes(&listings[session_count], path);
        strcpy(session_names[session_count++], one->d_name);
    }
    closedir(all);
}

/* ---- The tests ---- */

static struct bytes file;

static const char TWO_ORDERS[] = "N ABLE O B 1000 5000\nN BAKER I S 1000 6000 1 0 C\n";
static const char TWO_ORDERS_LISTING[] = "ABLE 0 1 5000 0\nBAKER 0 2 0 1000\nF 2 1 1000 5000\nLI 0\n";

static void test_sessions(void)
{
    expect("there are example sessions", session_count > 0);
    for (size_t i = 0; i < session_count; i++)
        expect_listing(session_names[i], &sessions[i], listings[i].at, listings[i].length);
}

static void test_two_orders(void)
{
    pack_string(&file, TWO_ORDERS);
    expect("two orders make 57 bytes", file.length == 57);
    expect_listing("two orders", &file, (const uint8_t *)TWO_ORDERS_LISTING, strlen(TWO_ORDERS_LISTING));
}

/* No call sees what an earlier one left: a refusal and another session in between change nothing. */
static void test_each_call_is_fresh(void)
{
    test_two_orders();
    file.length = 56;
    expect_refused("two orders without the last byte", &file, RIG_LISTING_BYTES, RIG_CONTENTS);
    test_two_orders();
}

static void test_no_calls(void)
{
    pack_string(&file, "");
    expect_listing("a session without calls", &file, (const uint8_t *)"LI 0\n", 5);
}

static void file_of_zeros(size_t length)
{
    memset(file.at, 0, sizeof file.at);
    file.length = length;
}

static void test_file_size(void)
{
    file_of_zeros(0);
    expect_refused("an empty file", &file, RIG_LISTING_BYTES, RIG_FILE_SIZE);
    file_of_zeros(1);
    expect_refused("a file of one byte", &file, RIG_LISTING_BYTES, RIG_FILE_SIZE);
    file_of_zeros(2);
    put_16(&file, 0, 1);
    expect_refused("count 1 in 2 bytes", &file, RIG_LISTING_BYTES, RIG_FILE_SIZE);
    file.length = 5;
    expect_refused("count 1 in 5 bytes", &file, RIG_LISTING_BYTES, RIG_FILE_SIZE);
    file_of_zeros(2 + 4 * (BODIES + 1));
    put_16(&file, 0, BODIES + 1);
    expect_refused("count 513", &file, RIG_LISTING_BYTES, RIG_FILE_SIZE);
    file_of_zeros(FILE_LIMIT + 1);
    expect_refused("65,536 bytes", &file, RIG_LISTING_BYTES, RIG_FILE_SIZE);
    file_of_zeros(FILE_BYTES);
    expect_refused("70,000 bytes", &file, RIG_LISTING_BYTES, RIG_FILE_SIZE);
}

/* Two orders with the 16-bit number at a place of the contents changed. */
static void expect_contents(const char *name, size_t place, size_t value)
{
    pack_string(&file, TWO_ORDERS);
    put_16(&file, place, value);
    expect_refused(name, &file, RIG_LISTING_BYTES, RIG_CONTENTS);
}

static void test_contents(void)
{
    expect_contents("first offset 11", 2, 11);
    expect_contents("second offset 31", 6, 31);
    expect_contents("first length 21", 4, 21);
    expect_contents("second length 26", 8, 26);
    expect_contents("second length 65,535", 8, 65535);
    pack_string(&file, TWO_ORDERS);
    put_16(&file, 4, 65535);
    put_16(&file, 6, 9); /* right only if 10 + 65,535 were reduced to 16 bits */
    expect_refused("a sum reduced to 16 bits", &file, RIG_LISTING_BYTES, RIG_CONTENTS);
    pack_string(&file, TWO_ORDERS);
    file.at[file.length++] = '\n';
    expect_refused("a line feed behind two orders", &file, RIG_LISTING_BYTES, RIG_CONTENTS);
    file_of_zeros(3);
    expect_refused("count 0 and a byte behind", &file, RIG_LISTING_BYTES, RIG_CONTENTS);
    file_of_zeros(FILE_LIMIT);
    expect_refused("count 0 in 65,535 bytes", &file, RIG_LISTING_BYTES, RIG_CONTENTS);
    file_of_zeros(2 + 4 * BODIES);
    put_16(&file, 0, BODIES);
    expect_refused("512 entries of zeros", &file, RIG_LISTING_BYTES, RIG_CONTENTS);
}

static void test_bodies(void)
{
    static const char *const bad[] = {
        "\n", " \n", "N\n", "N A L B 1000\n", "N A L B 1000 \n", "N A I S 1000 5000\n", "U 1\n",
        "N A L B 1000 100 \n", "N A L B 1000 100 7\n", "N A L B  1000 100\n", " N A L B 1000 100\n",
        "n A L B 1000 100\n", "XX 1\n", "N a L B 1000 100\n", "N ABCDEFGHIJKLM L B 1000 100\n",
        "N  L B 1000 100\n", "N A Z B 1000 100\n", "N A L X 1000 100\n", "N A L B 01000 100\n",
        "N A L B 1000\t100\n", "N A L B 1000 10000000\n", "N A I S 1000 5000 3 0 C\n",
        "N A I S 1000 5000 1 -1 C\n", "N A I S 1000 5000 1 0 K\n", "X 1\r\n", "X 00\n", "X 12345678\n",
        "X 1 1\n", "Q 1 B 1000\n", "Q 1 b 1000 100\n", "Q 1 B 1000 100 R\n", "X 1\nX 2\nX \n",
    };
    for (size_t i = 0; i < sizeof bad / sizeof bad[0]; i++) {
        pack_string(&file, bad[i]);
        expect_refused(bad[i], &file, RIG_LISTING_BYTES, RIG_BODY);
    }
    file_of_zeros(FILE_LIMIT); /* one body that fills the longest file */
    memset(file.at, 'N', FILE_LIMIT);
    put_16(&file, 0, 1);
    put_16(&file, 2, 6);
    put_16(&file, 4, FILE_LIMIT - 6);
    expect_refused("a body of 65,529 bytes", &file, RIG_LISTING_BYTES, RIG_BODY);
    file.length = FILE_LIMIT + 1;
    expect_refused("the same with a byte behind", &file, RIG_LISTING_BYTES, RIG_FILE_SIZE);
}

static void test_short_listing(void)
{
    pack_string(&file, TWO_ORDERS);
    expect_refused("a listing of 65,535 bytes", &file, RIG_LISTING_BYTES - 1, RIG_SHORT_LISTING);
    expect_refused("a listing of 54 bytes", &file, 54, RIG_SHORT_LISTING);
    expect_refused("a listing of no bytes", &file, 0, RIG_SHORT_LISTING);
    file.length = 0;
    expect_refused("a short listing is refused before the file", &file, RIG_LISTING_BYTES - 1, RIG_SHORT_LISTING);
    expect_refused("neither file nor listing has a byte", &file, 0, RIG_SHORT_LISTING);
}

/* More than the least is lawful: the listing stands at the start, and all behind it is as it was. */
static void test_long_listing(void)
{
    pack_string(&file, TWO_ORDERS);
    for (int at_end = 0; at_end < 2; at_end++) {
        struct played played = play_at(&file, RIG_LISTING_BYTES + 4000, at_end);
        expect("a listing of 69,536 bytes",
               gives(&played, (const uint8_t *)TWO_ORDERS_LISTING, strlen(TWO_ORDERS_LISTING)));
    }
}

/*
 * The longest body is an ILO with a label of 12 bytes and three numbers of 7 digits: 46 bytes. 512 of
 * them make the longest lawful file: 2 + 512 * 4 + 512 * 46 = 25,602 bytes. No order is at rest on
 * the other side, so each is all residue, which mark C cancels.
 */
#define LONGEST_BODY "N ABCDEFGHIJKL I S 1000000 1000000 2 1000000 C\n"
#define LONGEST_FILE 25602

static size_t repeat_line(char *text, const char *line, size_t count)
{
    size_t length = 0;
    for (size_t i = 0; i < count; i++)
        length += (size_t)sprintf(text + length, "%s", line);
    return length;
}

static void test_longest_file(void)
{
    static char text[FILE_BYTES], wanted[FILE_BYTES];
    size_t text_length = repeat_line(text, LONGEST_BODY, BODIES);
    pack(&file, (const uint8_t *)text, text_length);
    expect("the longest lawful file has 25,602 bytes", file.length == LONGEST_FILE);
    size_t length = 0;
    for (int i = 1; i <= BODIES; i++)
        length += (size_t)sprintf(wanted + length, "ABCDEFGHIJKL 0 %d 0 1000000\n", i);
    length += (size_t)sprintf(wanted + length, "LI 0\n");
    expect_listing("the longest lawful file", &file, (const uint8_t *)wanted, length);

    text[text_length - 1] = '0'; /* the last line feed: the last mark is now C0 */
    pack(&file, (const uint8_t *)text, text_length);
    expect("a byte more", file.length == LONGEST_FILE + 1);
    expect_refused("the longest lawful file with a byte more", &file, RIG_LISTING_BYTES, RIG_BODY);
}

/* ---- Damaged files ---- */

static uint64_t state;

/* Steele, Lea and Flood's SplitMix64. */
static uint64_t draw(void)
{
    uint64_t z = state += 0x9e3779b97f4a7c15u;
    z = (z ^ (z >> 30)) * 0xbf58476d1ce4e5b9u;
    z = (z ^ (z >> 27)) * 0x94d049bb133111ebu;
    return z ^ (z >> 31);
}

static size_t below(size_t limit)
{
    return limit == 0 ? 0 : (size_t)(draw() % limit);
}

static void change_byte(void)
{
    if (file.length > 0)
        file.at[below(file.length)] = (uint8_t)draw();
}

/* A byte that a body may have, so that more of the changed bodies are read far, or are lawful. */
static void change_byte_likely(void)
{
    static const char likely[] = "0123456789 NUXQLDOIBSRCAZ";
    if (file.length > 0)
        file.at[below(file.length)] = (uint8_t)likely[below(sizeof likely - 1)];
}

static void change_contents(void)
{
    size_t count = file.length < 2 ? 0 : file.at[0] + 256u * file.at[1];
    size_t place = 2 * below(1 + 2 * count);
    if (place + 1 < file.length)
        put_16(&file, place, below(3) ? below(70) : below(65536));
}

static void cut_short(void)
{
    file.length = below(file.length);
}

static void add_bytes(void)
{
    size_t more = below(4) ? 1 + below(20) : below(FILE_BYTES);
    for (; more > 0 && file.length < FILE_BYTES; more--)
        file.at[file.length++] = (uint8_t)draw();
}

static void all_random(void)
{
    file.length = below(300);
    for (size_t i = 0; i < file.length; i++)
        file.at[i] = (uint8_t)draw();
    if (file.length > 1)
        file.at[1] = 0; /* else nearly every count is over 512 */
}

static void damage(void)
{
    switch (below(8)) {
    case 0: cut_short(); break;
    case 1: add_bytes(); break;
    case 2: change_contents(); break;
    case 3: all_random(); break;
    case 4: change_byte(); break;
    default: change_byte_likely();
    }
}

static int ends_in_light(const struct played *played)
{
    const uint8_t *end = played->listing + played->answer;
    return played->answer >= 5 && (memcmp(end - 5, "LI 0\n", 5) == 0 || memcmp(end - 5, "LI 1\n", 5) == 0);
}

static int lawful_answer(const struct played *played)
{
    uint32_t number = played->answer - RIG_REFUSED;
    if (played->answer >= RIG_REFUSED)
        return number == RIG_FILE_SIZE || number == RIG_CONTENTS || number == RIG_BODY;
    return played->answer <= 46000 && ends_in_light(played);
}

static void test_damaged(uint64_t seed, unsigned long count)
{
    unsigned long answers[4] = {0}; /* 14, 15, 16, and a listing */
    for (unsigned long i = 0; i < count; i++) {
        state = seed + i;
        file = sessions[below(session_count)];
        for (size_t times = 1 + below(3); times > 0; times--)
            damage();
        struct played played = play_at(&file, RIG_LISTING_BYTES, (int)(i & 1));
        char name[64];
        snprintf(name, sizeof name, "damaged file of seed %llu", (unsigned long long)(seed + i));
        int lawful = lawful_answer(&played);
        expect(name, lawful && clean(&played));
        if (lawful)
            answers[played.answer >= RIG_REFUSED ? played.answer - RIG_REFUSED - RIG_FILE_SIZE : 3]++;
    }
    printf("damaged files: %lu refused by 14, %lu by 15, %lu by 16, %lu with a listing\n", answers[0], answers[1],
           answers[2], answers[3]);
}

int main(int count, char **words)
{
    int damaged = count == 5 && strcmp(words[2], "damaged") == 0;
    if (count != 2 && !damaged) {
        fprintf(stderr, "usage: test SESSIONS [damaged SEED COUNT]\n");
        return 2;
    }
    file_memory = guarded_new(FILE_BYTES);
    listing_memory = guarded_new(FILE_BYTES);
    read_sessions(words[1]);
    if (damaged) {
        test_damaged(strtoull(words[3], NULL, 10), strtoul(words[4], NULL, 10));
    } else {
        test_sessions();
        test_each_call_is_fresh();
        test_no_calls();
        test_file_size();
        test_contents();
        test_bodies();
        test_short_listing();
        test_long_listing();
        test_longest_file();
    }
    printf("%u passed, %u failed\n", passed, failed);
    return failed == 0 && passed > 0 ? 0 : 1;
}
